#!/usr/bin/env ruby
# Records what the Ruby driver tells of its servers and topology, as JSON lines that mdb_recorded reads.
#
# usage: record_ruby.rb URI SECONDS THREADS > recording.jsonl      needs ruby-mongo
#
# `Recorder#listen` is all that your own program needs: call it before a client is made. The rest is a load: so many threads that
# insert for so long, whatever fails. Debian's version of the driver, 2.5, tells nothing of pools.
require 'json'
require 'mongo'
require 'uri'

# Debian's version of the driver asks for a method that Ruby 3 lacks.
URI.define_singleton_method(:decode) { |text| decode_www_form_component(text) } unless URI.respond_to?(:decode)

# Writes each event as a line, in the order in which the driver tells them.
class Recorder
  KINDS = {
    primary: 'RSPrimary', secondary: 'RSSecondary', arbiter: 'RSArbiter', other: 'RSOther', ghost: 'RSGhost', sharded: 'Mongos',
    standalone: 'Standalone', unknown: 'Unknown'
  }.freeze
  NAMES = {
    Mongo::Monitoring::TOPOLOGY_OPENING => 'TopologyOpening', Mongo::Monitoring::TOPOLOGY_CHANGED => 'TopologyDescriptionChanged',
    Mongo::Monitoring::TOPOLOGY_CLOSED => 'TopologyClosed', Mongo::Monitoring::SERVER_OPENING => 'ServerOpening',
    Mongo::Monitoring::SERVER_DESCRIPTION_CHANGED => 'ServerDescriptionChanged', Mongo::Monitoring::SERVER_CLOSED => 'ServerClosed'
  }.freeze

  def initialize(file)
    @file = file
    @lock = Mutex.new
  end

  def listen
    NAMES.each { |topic, name| Mongo::Monitoring::Global.subscribe(topic, Subscriber.new(self, name)) }
  end

  def tell(name, event)
    line = { t: Process.clock_gettime(Process::CLOCK_MONOTONIC).round(6), kind: 'sdam', event: name }
    line[:address] = event.address.to_s if name.start_with?('Server')
    if name == 'ServerDescriptionChanged'
      line[:from] = KINDS.fetch(event.previous_description.server_type, 'Unknown')
      line[:to] = KINDS.fetch(event.new_description.server_type, 'Unknown')
    end
    @lock.synchronize { @file.puts(JSON.generate(line)) }
  end
end

# Hands the events of one topic on. The driver calls `succeeded` for each event that is not of a command.
class Subscriber
  def initialize(recorder, name)
    @recorder = recorder
    @name = name
  end

  def succeeded(event)
    @recorder.tell(@name, event)
  end
end

def work(items, till, counts)
  while Process.clock_gettime(Process::CLOCK_MONOTONIC) < till
    begin
      items.insert_one(n: 1)
      counts[:done] += 1
    rescue StandardError # a wait for a connection ends with Timeout::Error
      counts[:failed] += 1
      sleep 0.01
    end
  end
end

def main(uri, seconds, threads)
  Mongo::Logger.logger.level = Logger::FATAL
  Recorder.new($stdout).listen
  client = Mongo::Client.new(uri)
  till = Process.clock_gettime(Process::CLOCK_MONOTONIC) + Float(seconds)
  counts = { done: 0, failed: 0 }
  Array.new(Integer(threads)) { Thread.new { work(client[:items], till, counts) } }.each(&:join)
  client.close
  warn "ruby #{Mongo::VERSION}: #{counts[:done]} done, #{counts[:failed]} failed"
end

main(*ARGV) if $PROGRAM_NAME == __FILE__
