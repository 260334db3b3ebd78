#!/usr/bin/perl
# fetch.pl SOCKET HOST FILE STATE: a fetcher in Perl, by docs/HTTP.md alone. STATE has what FILE is
# made of. Status 1: FILE stays as it is.
use strict;
use warnings;
use Digest::SHA;
use IO::Handle;
use IO::Socket::UNIX;
use POSIX 'strftime';

my ($socket, $host, $file, $state) = @ARGV;
$SIG{PIPE} = 'IGNORE';
umask 077;

sub stays { print "the file stays: @_\n"; exit 1 }

# The body of a 200 that came whole.
sub ask {
    my $path = shift;
    my $reply = eval {
        local $SIG{ALRM} = sub { die "late\n" };
        alarm 60;
        my $peer = IO::Socket::UNIX->new(Peer => $socket) or die "$!\n";
        print $peer "GET $path HTTP/1.1\r\nHost: desk\r\n\r\n";
        local $/;
        <$peer>;
    } // '';
    alarm 0;
    my ($head, $body) = split /\r\n\r\n/, $reply, 2;
    defined $body or stays('no answer');
    $head =~ m{^HTTP/1\.1 200 } or stays(substr $head, 9, 30);
    my ($length) = $head =~ /^content-length: *(\d+)\r?$/im;
    defined $length && $length == length $body or stays('nobody sees whether it came whole');
    return $body;
}

my $item = qr/!?(?:[a-z_][a-z0-9._-]*|[A-Z][A-Z0-9_]*)/;
my $items = qr/$item(?:, $item)*/;
my $alias = qr/(?:User|Runas|Host|Cmnd)_Alias [A-Z][A-Z0-9_]* = [ -~]+/;

sub check {
    my ($text, $base) = @_;
    $text =~ /\n\z/ || $text eq '' or stays('its last line has no end');
    my $digest = Digest::SHA->new(256);
    my $begins = $digest->clone->hexdigest eq $base;
    for my $line ($text =~ /(.*)\n/g) {
        $line =~ /^(?:$items $items = \($items\) [ -~]+|$alias)\z/ or stays("no desk's: $line");
        $begins ||= $digest->add("$line\n")->clone->hexdigest eq $base;
    }
    $begins or stays('it does not begin with its base');
}

sub compare {
    my ($count, $made) = @_;
    open my $there, '<', $state or return;
    my ($before, $was) = <$there> =~ /^(\d+) (.*)\n\z/ or die "$state is damaged\n";
    $count >= $before or stays('the desk is behind');
    return if $made eq $was;
    my @past = split /\n/, ask('/v1/history');
    (pop @past) =~ / \Q$made\E\z/ or stays('its history is another one');
    grep { / \Q$was\E\z/ } @past or stays('its history lacks what was here');
}

sub put {
    my ($path, $text) = @_;
    open my $there, '>', "$path.new~" or die "$path: $!\n";
    print $there $text and $there->flush and $there->sync or die "$path: $!\n";
    return "$path.new~";
}

my $at = strftime '%Y%m%d%H%M%SZ', gmtime time - 3600;
my $body = ask("/v1/hosts/$host/at/$at");
my ($count, $made, $base, $text) = $body =~ /\A(0|[1-9]\d*) ([0-9a-f]{64} ([0-9a-f]{64}))\n(.*)\z/s
    or stays('no count');
check($text, $base);
compare($count, $made);
my $new = put($file, $text);
chmod 0440, $new;
system('visudo', '-qcf', $new) == 0 or stays('sudo does not read it');
# (what it will not go below is on the disk before the file)
rename put($state, "$count $made\n"), $state or die "$state: $!\n";
rename $new, $file or die "$file: $!\n";
print "taken: $count messages\n";
