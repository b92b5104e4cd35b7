#!/usr/bin/env ruby
# encoding: utf-8
# The stomp gem writes a session: client.rb CASE PORT, the cases are those of `capture`.

require 'stomp'

CASE, PORT = ARGV[0], ARGV[1].to_i
NOTE = "a:b\\c\nd\re é"
BODY = "zero \0 then é"

def host(login = {})
  [{ :host => '127.0.0.1', :port => PORT }.merge(login)]
end

def opened(headers, options = {}, login = {})
  Stomp::Connection.new({ :hosts => host(login), :reliable => false, :connect_headers => headers }.merge(options))
end

V12 = { 'accept-version' => '1.2', 'host' => 'localhost' }
V11 = { 'accept-version' => '1.1', 'host' => 'localhost' }

# What ACK and NACK name a message by: 1.2 its ack, 1.1 its message-id and subscription.
def settle(client, call, message, headers = {})
  if client.protocol == '1.1'
    client.send(call, message.headers['message-id'], headers.merge(:subscription => message.headers['subscription']))
  else
    client.send(call, message.headers['ack'], headers)
  end
end

def whole(client, pause = 0, note = NOTE)
  client.subscribe('/queue/a', { :ack => 'client-individual', 'x:y' => 'z' }, '0')
  first = client.receive
  client.subscribe('/queue/b', { :ack => 'client', :id => 'sub:1' })
  second = client.receive
  client.begin('tx1')
  client.publish('/queue/a', BODY, :transaction => 'tx1', :note => note, :empty => '',
                 :'content-type' => 'application/octet-stream')
  sleep pause
  client.publish('/queue/é', 'text é', :transaction => 'tx1', :repeated => ['one', 'two'])
  settle(client, :ack, first, :transaction => 'tx1')
  client.commit('tx1', :receipt => 'c1')
  client.receive
  settle(client, :nack, second)
  client.begin('tx2')
  client.publish('/queue/a', '', :transaction => 'tx2')
  client.abort('tx2')
  client.unsubscribe('/queue/b', {}, 'sub:1')
  client.unsubscribe('/queue/a', { :id => '0' })
  sleep pause
  client.disconnect(:receipt => 'bye')
end

def session1(client, id)
  client.subscribe('/queue/a', { :ack => 'client' }, id)
  first = client.receive
  client.begin('tx1')
  client.publish('/queue/a', BODY, :transaction => 'tx1', :note => 'plain é')
  client.ack(first.headers['message-id'], { :transaction => 'tx1', :subscription => id }.compact)
  client.commit('tx1')
  client.unsubscribe('/queue/a', {}, id)
  client.disconnect(:receipt => 'bye')
end

def labels11(client, labels)
  labels.each_with_index do |label, number|
    client.subscribe('/queue/a', { :ack => 'client', :label => label.unpack1('H*') }, number.to_s)
    settle(client, :ack, client.receive)
  end
  client.disconnect(:receipt => 'bye')
end

case CASE
when 'ruby-12'
  whole(opened(V12))
when 'ruby-12-all-versions'
  whole(opened(V12.merge('accept-version' => '1.0,1.1,1.2', 'heart-beat' => '0,0'), {},
               { :login => 'user', :passcode => 'secret' }))
when 'ruby-12-crlf-heart-beat'
  whole(opened(V12.merge('heart-beat' => '200,300'), { :stompconn => true, :usecrlf => true }), 0.7)
when 'ruby-12-no-length'
  client = opened(V12)
  client.publish('/queue/a', BODY, :suppress_content_length => true)
  client.publish('/queue/a', 'after it', :suppress_content_length => true, :suppress_content_type => true)
  client.disconnect(:receipt => 'bye')
when 'ruby-12-passcode'
  opened(V12, {}, { :login => 'user', :passcode => 'a:b' }).disconnect(:receipt => 'bye')
when 'ruby-12-passcode-backslash'
  opened(V12, { :stompconn => true }, { :login => 'user', :passcode => 'a\\b' }).disconnect(:receipt => 'bye')
when 'ruby-12-passcode-backslash-connect'
  opened(V12, {}, { :login => 'user', :passcode => 'a\\b' }).disconnect(:receipt => 'bye')
when 'ruby-12-passcode-escaped'
  opened(V12, { :stompconn => true }, { :login => 'user', :passcode => 'a\\cb\\\\c' }).disconnect(:receipt => 'bye')
when 'ruby-12-client'
  client = Stomp::Client.new(:hosts => host, :reliable => false, :connect_headers => V12)
  got = Queue.new
  client.subscribe('/queue/a', :ack => 'client') { |message| got << message }
  client.acknowledge(got.pop)
  client.unsubscribe('/queue/a')
  client.close
when 'ruby-12-client-receipt'
  client = Stomp::Client.new(:hosts => host, :reliable => false, :connect_headers => V12)
  got = Queue.new
  client.subscribe('/queue/a', :id => '0', :ack => 'client') { |message| got << message }
  message = got.pop
  client.begin('tx1')
  client.acknowledge(message, :transaction => 'tx1')
  client.publish('/queue/a', BODY, :transaction => 'tx1') { |receipt| got << receipt }
  got.pop
  client.commit('tx1')
  client.unsubscribe('/queue/a', :id => '0')
  client.close
when 'ruby-11'
  session1(opened(V11), '0')
when 'ruby-11-life'
  whole(opened(V11), 0, NOTE.delete("\r"))
when 'ruby-11-life-return'
  whole(opened(V11))
when 'ruby-11-life-crlf-heart-beat'
  whole(opened(V11.merge('heart-beat' => '200,300'), { :stompconn => true, :usecrlf => true }), 0.7, NOTE.delete("\r"))
when 'ruby-11-labels'
  labels11(opened(V11), ['m\\c1', 'm\\n2', 'mé3', 'm' * 32])
when 'ruby-11-label-backslash'
  labels11(opened(V11), ['m\\\\1', 'm\\\\c2'])
when 'ruby-11-label-return'
  labels11(opened(V11), ["m\r1"])
when 'ruby-11-client'
  client = Stomp::Client.new(:hosts => host, :reliable => false, :connect_headers => V11.merge('accept-version' => '1.0,1.1'))
  got = Queue.new
  client.subscribe('/queue/a', :id => '0', :ack => 'client') { |message| got << message }
  first = got.pop
  client.subscribe('/queue/b', :id => 'sub:1', :ack => 'client-individual') { |message| got << message }
  second = got.pop
  client.begin('tx1')
  client.acknowledge(first, :transaction => 'tx1')
  client.publish('/queue/a', BODY, :transaction => 'tx1') { |receipt| got << receipt }
  got.pop
  client.commit('tx1')
  client.nack(second)
  client.unsubscribe('/queue/b', :id => 'sub:1')
  client.close
when 'ruby-11-client-no-id'
  client = Stomp::Client.new(:hosts => host, :reliable => false, :connect_headers => V11)
  got = Queue.new
  client.subscribe('/queue/a', :ack => 'client') { |message| got << message }
  client.acknowledge(got.pop)
  client.unsubscribe('/queue/a')
  client.close
when 'ruby-11-unreceive'
  client = opened(V11)
  client.subscribe('/queue/a', { :ack => 'client', :label => ('m' * 18).unpack1('H*') }, '0')
  client.unreceive(client.receive)
  client.subscribe('/queue/b', { :ack => 'client', :label => ('n' * 19).unpack1('H*') }, '1')
  client.unreceive(client.receive)
  client.disconnect(:receipt => 'bye')
when 'ruby-10'
  session1(opened({}, {}, { :login => 'user', :passcode => 'secret' }), nil)
else
  abort "client.rb: no case #{CASE}"
end
