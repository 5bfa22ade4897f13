# A load by ruby-mongo: threads that insert documents, each with its own text, for some seconds.
# On a busy machine it goes on until each has 25 done, but for no longer than six times as long.
#
# usage: ruby load.rb SECONDS THREADS      MDB_URI says where; it is read here, as this driver's own reading needs a method that Ruby 3 lacks

require 'mongo'

def options(words)
  given = words.to_s.split('&').to_h { |word| word.split('=', 2) }
  made = { database: 'test', logger: Logger.new(File::NULL) }
  seconds = { heartbeat_frequency: 'heartbeatFrequencyMS', connect_timeout: 'connectTimeoutMS', socket_timeout: 'socketTimeoutMS',
              server_selection_timeout: 'serverSelectionTimeoutMS' }
  seconds.each { |name, word| made[name] = given[word].to_f / 1000 if given[word] }
  made[:replica_set] = given['replicaSet'] if given['replicaSet']
  made[:connect] = :direct if given['directConnection'] == 'true'
  made[:write] = { w: given['w'] =~ /\A\d+\z/ ? given['w'].to_i : given['w'] } if given['w']
  made
end

LEAST = 25
seconds, threads = Float(ARGV[0]), Integer(ARGV[1])
hosts, words = ENV.fetch('MDB_URI').delete_prefix('mongodb://').split('/', 2)
client = Mongo::Client.new(hosts.split(','), options(words.to_s.delete_prefix('?')))
counts = { done: 0, failed: 0 }
begun = Process.clock_gettime(Process::CLOCK_MONOTONIC)
workers = Array.new(threads) do |thread|
  Thread.new do
    number = mine = 0
    while Process.clock_gettime(Process::CLOCK_MONOTONIC) - begun < (mine >= LEAST ? 1 : 6) * seconds
      number += 1
      begin
        client[:items].insert_one({ text: "#{thread} #{number}" })
        counts[:done] += 1
        mine += 1
      rescue StandardError
        counts[:failed] += 1
        sleep 0.01
      end
      sleep 0.01
    end
  end
end
workers.each(&:join)
client.close
warn "ruby-mongo #{Mongo::VERSION} #{counts}"
