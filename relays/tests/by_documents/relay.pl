#!/usr/bin/perl
# relay.pl FOLDER SOCKET RELAY [AT]: a relay in Perl, by docs/HTTP.md and docs/MESSAGES.md alone.
# Each line of its input has the members of a message, in any order. With a moment AT it tells what
# became of all that is open then.
use strict;
use warnings;
use IO::Handle;
use IO::Socket::UNIX;
use JSON::PP;

my ($folder, $socket, $relay, $at) = @ARGV;
my $json = JSON::PP->new->utf8->canonical;
$SIG{PIPE} = 'IGNORE';
STDOUT->autoflush(1);

# The status and the body of a whole reply; nothing of another.
sub ask {
    my ($method, $path, $body) = @_;
    my $reply = eval {
        local $SIG{ALRM} = sub { die "late\n" };
        alarm 20;
        my $peer = IO::Socket::UNIX->new(Peer => $socket) or die "$!\n";
        my $length = defined $body ? 'Content-Length: ' . length($body) . "\r\n" : '';
        print $peer "$method $path HTTP/1.1\r\nHost: desk\r\n$length\r\n", $body // '';
        local $/;
        <$peer>;
    } // '';
    alarm 0;
    my ($head, $said) = split /\r\n\r\n/, $reply, 2;
    my ($status) = ($head // '') =~ m{^HTTP/1\.1 (\d{3}) };
    my ($length) = ($head // '') =~ /^content-length: *(\d+)\r?$/im;
    return defined $length && defined $said && $length == length $said ? ($status, $said) : (0, '');
}

sub canonical {
    my $members = shift;
    for my $name (grep { $members->{$_} } qw(hosts cmnds)) {
        my %seen = map { $_ => 1 } @{ $members->{$name} };
        $members->{$name} = [sort keys %seen];
    }
    return $json->encode($members);
}

sub keep {
    my ($number, $line) = @_;
    open my $file, '>', "$folder/new" or die "new: $!\n";
    print $file canonical($json->decode($line)) and $file->flush and $file->sync or die "new: $!\n";
    close $file;
    open my $there, '<', $folder or die "$folder: $!\n";
    rename "$folder/new", "$folder/$number.kept" and $there->sync or die "$number.kept: $!\n";
}

sub judge {
    my ($status, $body) = @_;
    return 'done' if $status == 200 && $body eq "ack\n";
    my ($code) = $body =~ /^([A-Z]\d{1,2}) [A-Za-z]+\n\z/ or return 'again';
    return 'again' if $code eq 'T7';
    return 'refused' if $code =~ /^[AM]/ && $status =~ /^(400|403|413)$/;
    return $code =~ /^[TP]/ && $status =~ /^4(0[0345]|11)$/ ? 'mend' : 'again';
}

if (defined $at) {
    my ($status, $body) = ask('GET', "/v1/open/$at");
    my $told = $status == 200 ? eval { $json->decode($body)->{names} } : undef;
    print "not known: the desk does not answer\n" and exit 3 if !defined $told;
    for (@$told) {
        my @may = @{ $_->{may_approve}{people} // [] };
        print "$_->{by} $_->{no} $_->{status} ", join(',', @may), "\n";
    }
    exit;
}
my $number = () = glob "$folder/*.*";
while (my $line = <STDIN>) { keep(++$number, $line) }
for my $path (glob "$folder/*.kept") {
    open my $file, '<', $path or die "$path: $!\n";
    my ($status, $body) = ask('POST', "/v1/relays/$relay/messages", do { local $/; <$file> });
    my $became = judge($status, $body);
    rename $path, $path =~ s/kept\z/$became/r if $became =~ /done|refused/;
    print "$became ", $body =~ s/\n//gr, " $status\n";
}
