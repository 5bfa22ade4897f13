#!/usr/bin/perl
# A load by libmongodb-perl: inserts of documents, each with its own text, for some seconds, in one thread.
# On a busy machine it goes on until 25 are done, but for no longer than six times as long.
#
# usage: perl load.pl SECONDS      MDB_URI says where
use strict;
use warnings;
use MongoDB;
use Time::HiRes qw(time sleep);

my $seconds = shift;
my $client  = MongoDB->connect($ENV{MDB_URI});
my $items   = $client->ns('test.items');
my ($done, $failed, $number) = (0, 0, 0);
my $begin = time;
while (time - $begin < ($done >= 25 ? 1 : 6) * $seconds) {
    $number++;
    if (eval { $items->insert_one({ text => "0 $number" }); 1 }) {
        $done++;
    }
    else {
        $failed++;
        sleep 0.01;
    }
    sleep 0.01;
}
$client->disconnect;
print STDERR "libmongodb-perl $MongoDB::VERSION: done $done failed $failed\n";
