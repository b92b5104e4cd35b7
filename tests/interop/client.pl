#!/usr/bin/env perl
# Net::Stomp writes a session: client.pl CASE PORT, the cases are those of `capture`.
# It writes the headers in the order of Perl's hashes; PERL_HASH_SEED fixes that.

use strict;
use warnings;
use Net::Stomp;
use Net::Stomp::Frame;

my ($case, $port) = @ARGV;
my $body = "zero \0 then \xc3\xa9";
my %v12 = ('accept-version' => '1.2', host => 'localhost');

sub opened {
    my $client = Net::Stomp->new({ hostname => '127.0.0.1', port => $port, timeout => 10 });
    $client->connect({@_});
    return $client;
}

# The calls that the module has no method for.
sub frame {
    my ($client, $command, %headers) = @_;
    $client->send_frame(Net::Stomp::Frame->new({ command => $command, headers => {%headers} }));
}

sub bye {
    my ($client) = @_;
    frame($client, 'DISCONNECT', receipt => 'bye');
    $client->receive_frame;
    $client->_close_socket;
}

sub session12 {
    my ($client, $pause) = @_;
    $client->subscribe({ destination => '/queue/a', id => 'sub-0', ack => 'client-individual' });
    my $first = $client->receive_frame;
    $client->subscribe({ destination => '/queue/b', id => 'sub-1', ack => 'client' });
    my $second = $client->receive_frame;
    frame($client, 'BEGIN', transaction => 'tx1');
    $client->send({ destination => '/queue/a', transaction => 'tx1', note => 'a\\cb\\\\c\\nd', empty => '',
            bytes_message => 1, body => $body });
    select(undef, undef, undef, $pause) if $pause;
    $client->send({ destination => "/queue/\xc3\xa9", transaction => 'tx1', body => "text \xc3\xa9" });
    $client->ack({ frame => $first, id => $first->headers->{ack}, transaction => 'tx1' });
    frame($client, 'COMMIT', transaction => 'tx1');
    $client->nack({ frame => $second, id => $second->headers->{ack} });
    frame($client, 'BEGIN', transaction => 'tx2');
    $client->send({ destination => '/queue/a', transaction => 'tx2', body => '' });
    frame($client, 'ABORT', transaction => 'tx2');
    $client->send_transactional({ destination => '/queue/a', body => 'transactional' });
    $client->unsubscribe({ id => 'sub-1' });
    $client->unsubscribe({ id => 'sub-0' });
    bye($client);
}

sub sends {
    my (%headers) = @_;
    my $client = opened(%v12);
    $client->send({ destination => '/queue/a', %headers });
    $client->send({ destination => '/queue/a', body => 'after it' });
    bye($client);
}

if ($case eq 'perl-12') {
    session12(opened(%v12));
} elsif ($case eq 'perl-12-heart-beat') {
    session12(opened(%v12, 'heart-beat' => '200,300', login => 'user', passcode => 'secret'), 0.7);
} elsif ($case eq 'perl-12-colon') {
    sends(note => 'a:b', body => 'text');
} elsif ($case eq 'perl-12-backslash') {
    sends(note => 'a\\b', body => 'text');
} elsif ($case eq 'perl-12-line-feed') {
    sends(note => "a\nb", body => 'text');
} elsif ($case eq 'perl-12-line-feed-colon') {
    sends(note => "a\npriority:9", body => 'text');
} elsif ($case eq 'perl-12-zero') {
    sends(body => $body);
} elsif ($case eq 'perl-12-ack') {
    my $client = opened(%v12);
    $client->subscribe({ destination => '/queue/a', id => 'sub-0', ack => 'client' });
    $client->ack({ frame => $client->receive_frame });
    $client->disconnect;
} elsif ($case eq 'perl-12-no-id') {
    my $client = opened(%v12);
    $client->subscribe({ destination => '/queue/a', ack => 'client' });
    $client->receive_frame;
    $client->disconnect;
} elsif ($case eq 'perl-10') {
    my $client = opened(login => 'user', passcode => 'secret');
    $client->subscribe({ destination => '/queue/a', ack => 'client' });
    $client->ack({ frame => $client->receive_frame });
    $client->send_transactional({ destination => '/queue/a', body => $body, bytes_message => 1 });
    $client->unsubscribe({ destination => '/queue/a' });
    $client->disconnect;
} else {
    die "client.pl: no case $case\n";
}
