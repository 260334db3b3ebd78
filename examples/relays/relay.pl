#!/usr/bin/perl
# A small relay, of what Debian's perl-base has: relay.pl FOLDER SOCKET RELAY PERSON
#
# sshd starts it for a person's key, command="relay.pl FOLDER SOCKET RELAY PERSON",restrict: the key
# says who is calling. The words, in SSH_ORIGINAL_COMMAND, are ask CEILING HOST RUNAS MINUTES COMMAND,
# or show, approve, refuse or revoke with ASKER NUMBER; without any it posts what is kept. Nobody
# approves what this relay cannot show: another request could come by that name. A message is a
# file of FOLDER, below the words that it was made of, until the desk has said its last word on it:
# the same bytes are posted again, and the same words make no second message while it is kept.
use strict;
use warnings;
use Fcntl ':flock';
use IO::Socket::UNIX;
use POSIX 'strftime';

my ($folder, $socket, $relay, $person) = @ARGV;
my $line = $ENV{SSH_ORIGINAL_COMMAND} // '';
$line =~ /^[ -~]*\z/ or die "a word is not plain ASCII\n";
my ($kind, @words) = split ' ', $line =~ s/(["\\])/\\$1/gr;    # as JSON has them

sub stamp { strftime '%Y%m%d%H%M%SZ', gmtime shift }

sub message {
    my ($no, $now) = (shift, time);
    my ($at, $minutes) = (stamp($now), $words[3] // '');
    if ($kind eq 'ask' && @words > 4 && $minutes =~ /^[1-9]\d{0,4}\z/) {
        my ($until, @command) = (stamp($now + 60 * $minutes), @words[4 .. $#words]);
        return qq({"at":"$at","by":"$person","ceiling":"$words[0]","cmnds":["@command"],)
            . qq("from":"$at","hosts":["$words[1]"],"kind":"request","no":$no,)
            . qq("runas":"$words[2]","until":"$until"});
    }
    $kind =~ /^(approve|refuse|revoke)\z/ && "@words" =~ /^\S+ (0|[1-9]\d{0,8})\z/
        or die "the words are none of these: ask, approve, refuse, revoke\n";
    return qq({"at":"$at","by":"$person","kind":"$kind","no":$words[1],"of":"$words[0]"});
}

# `ack`, or the status, code and name of a refusal; nothing where no whole answer of a desk's came.
sub answer {
    my $body = shift;
    my $head = "POST /v1/relays/$relay/messages HTTP/1.1\r\nHost: desk\r\nContent-Length: ";
    my $reply = eval {
        local $SIG{ALRM} = sub { die "late\n" };
        alarm 60;
        my $peer = IO::Socket::UNIX->new(Peer => $socket) or die "$!\n";
        print $peer $head, length $body, "\r\n\r\n$body";
        local $/;
        <$peer>;
    } // '';
    alarm 0;
    return 'ack' if $reply =~ m{^HTTP/1\.1 200 .*\r\n\r\nack\n\z}s;
    return $reply =~ m{^HTTP/1\.1 (4\d\d) .*\r\n\r\n([AM]\d+ \w+)\n\z}s ? "$1 $2" : '';
}

# The file of a request that this relay brought, and its words.
sub request {
    my ($of, $no) = @_;
    my ($file) = grep { /^\Q$no\E\.(done|kept|refused)\z/ } glob "$no.*";
    my $said = $file ? (rows($file))[0] : '';
    return $said =~ /^\Q$of\E ask / ? ($file, $said) : ();
}

sub rows {
    open my $file, '<', shift or die "$!\n";
    chomp(my @rows = <$file>);
    return @rows;
}

$SIG{PIPE} = 'IGNORE';
umask 077;
chdir $folder or die "$folder: $!\n";
open my $lock, '>>', 'lock' or die "lock: $!\n";
flock $lock, LOCK_EX or die "lock: $!\n";    # one call at a time
if (defined $kind && $kind =~ /^(show|approve)\z/) {
    my ($file, $said) = @words == 2 && $words[1] =~ /^\d{1,9}\z/ ? request(@words) : ();
    $file or die "this relay brought no such request, so it cannot show what it asks for\n";
    print "$words[1], $said\n";
    exit 0 if $kind eq 'show';
    $file !~ /refused/ or die "the desk refused it: there is nothing to approve\n";
}
if (defined $kind && !grep { (rows($_))[0] eq "$person $line" } glob '*.kept') {
    my ($last) = sort { $b <=> $a } 0, map { /^(\d+)\./ } glob '*.*';
    my ($no, $text) = ($last + 1, message($last + 1));
    open my $file, '>', 'new' or die "new: $!\n";
    print $file "$person $line\n$text\n" and $file->flush and $file->sync or die "new: $!\n";
    open my $here, '<', '.' or die "$folder: $!\n";
    rename 'new', "$no.kept" and $here->sync or die "$no.kept: $!\n";
}
my $status = 0;
for my $no (sort { $a <=> $b } map { /^(\d+)/ } glob '*.kept') {
    my ($said, $body) = rows("$no.kept");
    my $reply = answer($body);
    rename "$no.kept", $no . ($reply eq 'ack' ? '.done' : '.refused') if $reply;
    next if $said !~ /^\Q$person\E /;
    print "$no, $said: ", $reply || 'kept, for no answer came: the same words post it again', "\n";
    $status = $reply ? 1 : 3 if $reply ne 'ack';
}
exit $status;
