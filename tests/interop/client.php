<?php
// PHP's stomp extension writes a session: client.php CASE PORT, the cases are those of `capture`.

[, $case, $port] = $argv;
const BODY = "zero \0 then \xc3\xa9";
const V12 = ['accept-version' => '1.2', 'host' => 'localhost'];

function opened(array $headers, string $user = '', string $passcode = ''): Stomp
{
    global $port;
    return new Stomp("tcp://127.0.0.1:$port", $user, $passcode, $headers);
}

function session12(Stomp $client, int $pause = 0): void
{
    $client->subscribe('/queue/a', ['id' => '0', 'ack' => 'client-individual', 'receipt' => 's0']);
    $first = $client->readFrame();
    $client->subscribe('/queue/b', ['id' => 'sub-1', 'ack' => 'client']);
    $second = $client->readFrame();
    $client->begin('tx1');
    $client->send('/queue/a', BODY, ['transaction' => 'tx1', 'note' => 'a\\cb\\\\c\\nd', 'empty' => '']);
    usleep($pause);
    $client->send("/queue/\xc3\xa9", "text \xc3\xa9", ['transaction' => 'tx1']);
    $client->ack($first, ['id' => $first->headers['ack'], 'transaction' => 'tx1']);
    $client->commit('tx1', ['receipt' => 'c1']);
    if (method_exists($client, 'nack')) {
        $client->nack($second, ['id' => $second->headers['ack']]);
    }
    $client->begin('tx2');
    $client->send('/queue/a', '', ['transaction' => 'tx2']);
    $client->abort('tx2');
    $client->unsubscribe('/queue/b', ['id' => 'sub-1']);
    $client->unsubscribe('/queue/a', ['id' => '0']);
}

function sends(array $headers): void
{
    $client = opened(V12);
    $client->send('/queue/a', 'text', $headers);
    $client->send('/queue/a', 'after it');
}

switch ($case) {
    case 'php-12':
        session12(opened(V12));
        break;
    case 'php-12-heart-beat':
        session12(opened(V12 + ['heart-beat' => '200,300'], 'user', 'secret'), 700000);
        break;
    case 'php-12-colon':
        sends(['note' => 'a:b']);
        break;
    case 'php-12-backslash':
        sends(['note' => 'a\\b']);
        break;
    case 'php-12-line-feed':
        sends(['note' => "a\nb"]);
        break;
    case 'php-12-line-feed-colon':
        sends(['note' => "a\npriority:9"]);
        break;
    case 'php-12-ack':
        $client = opened(V12);
        $client->subscribe('/queue/a', ['id' => '0']);
        $client->ack($client->readFrame());
        unset($client);
        break;
    case 'php-12-no-id':
        $client = opened(V12);
        $client->subscribe('/queue/a');
        $client->readFrame();
        unset($client);
        break;
    case 'php-10':
        $client = opened([], 'user', 'secret');
        $client->subscribe('/queue/a');
        $client->ack($client->readFrame());
        $client->send('/queue/a', BODY);
        $client->unsubscribe('/queue/a');
        unset($client);
        break;
    default:
        fwrite(STDERR, "client.php: no case $case\n");
        exit(1);
}
