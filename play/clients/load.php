<?php
// A load by php-mongodb: inserts of documents, each with its own text, for some seconds, in one thread.
// On a busy machine it goes on until 25 are done, but for no longer than six times as long.
//
// usage: php load.php SECONDS      MDB_URI says where

$begin = microtime(true);
$seconds = (float) $argv[1];
$manager = new MongoDB\Driver\Manager(getenv('MDB_URI'));
[$done, $failed, $number] = [0, 0, 0];
while (microtime(true) - $begin < ($done >= 25 ? 1 : 6) * $seconds) {
    $number++;
    $bulk = new MongoDB\Driver\BulkWrite();
    $bulk->insert(['text' => "0 $number"]);
    try {
        $manager->executeBulkWrite('test.items', $bulk);
        $done++;
    } catch (MongoDB\Driver\Exception\Exception $why) {
        $failed++;
        usleep(10000);
    }
    usleep(10000);
}
fwrite(STDERR, 'php-mongodb ' . MONGODB_VERSION . ": done $done failed $failed\n");
