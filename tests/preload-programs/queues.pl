# What a program in Perl does with message queues: by IPC::Msg and IPC::SysV, and by Perl's own functions.
use strict;
use warnings;
use IPC::Msg;
use IPC::SysV qw(IPC_CREAT IPC_EXCL IPC_NOWAIT IPC_PRIVATE IPC_RMID IPC_STAT MSG_NOERROR S_IRUSR S_IWUSR ftok);

sub expect {
    my ($holds, $what) = @_;
    die "$what ($!)\n" unless $holds;
}

my $key = ftok($0, 7) // die "ftok: $!\n";
my $queue = IPC::Msg->new($key, IPC_CREAT | IPC_EXCL | S_IRUSR | S_IWUSR) or die "new: $!\n";
expect(!IPC::Msg->new($key, IPC_CREAT | IPC_EXCL | S_IRUSR | S_IWUSR) && $!{EEXIST}, 'IPC_EXCL');
expect(IPC::Msg->new($key, 0)->id == $queue->id, 'the key is of another queue');

expect($queue->snd(5, 'hello'), 'snd');
expect($queue->snd(3, "a\0b", IPC_NOWAIT), 'snd of a zero byte');
my $text;
expect($queue->rcv($text, 100, -9) == 3 && $text eq "a\0b", 'rcv by the lowest type');
expect($queue->rcv($text, 100, 0, IPC_NOWAIT) == 5 && $text eq 'hello', 'rcv of the first');
expect(!defined $queue->rcv($text, 100, 0, IPC_NOWAIT) && $!{ENOMSG}, 'rcv of none');
$queue->snd(1, 'too long');
expect(!defined $queue->rcv($text, 3) && $!{E2BIG}, 'rcv of a longer text');
expect($queue->rcv($text, 3, 0, MSG_NOERROR) == 1 && $text eq 'too', 'rcv of a text that is cut');

my $stat = $queue->stat or die "stat: $!\n";
expect($stat->uid == $> && $stat->cuid == $> && ($stat->mode & 0777) == 0600, 'stat: owner and mode');
expect($stat->qnum == 0 && $stat->qbytes == 16384 && $stat->lspid == $$ && $stat->lrpid == $$, 'stat: numbers');
expect($queue->set(mode => 0640, qbytes => 4096), 'set');
$stat = $queue->stat;
expect(($stat->mode & 0777) == 0640 && $stat->qbytes == 4096, 'stat after set');

# A child takes what its parent sends, and sends its sum back; the parent waits for it.
my $child = fork // die "fork: $!\n";
if ($child == 0) {
    my ($sum, $number) = 0;
    for (1 .. 50) {
        $queue->rcv($number, 20, 1) or exit 1;
        $sum += $number;
    }
    exit($queue->snd(2, $sum) ? 0 : 1);
}
$queue->snd(1, $_) or die "snd: $!\n" for 1 .. 50;
expect($queue->rcv($text, 20, 2) && $text == 1275, 'the sum of the child');
waitpid $child, 0;
expect($? == 0 && $queue->stat->lspid == $child, 'the child');

# Perl's own functions.
my $id = msgget(IPC_PRIVATE, IPC_CREAT | 0600) // die "msgget: $!\n";
expect(msgsnd($id, pack('l! a*', 9, 'plain'), 0), 'msgsnd');
my $message;
expect(msgrcv($id, $message, 100, 0, 0) && join(' ', unpack('l! a*', $message)) eq '9 plain', 'msgrcv');
expect(msgctl($id, IPC_STAT, my $bytes), 'msgctl: IPC_STAT');
expect(msgctl($id, IPC_RMID, 0), 'msgctl: IPC_RMID');
expect(!msgsnd($id, pack('l! a*', 9, 'plain'), 0) && $!{EINVAL}, 'msgsnd to a removed queue');

# alarm bounds a wait, and a handler that doesn't die ends it with EINTR.
my $late = !eval { local $SIG{ALRM} = sub { die "late\n" }; alarm 1; $queue->rcv($text, 20, 4); 1 };
expect($late && $@ eq "late\n", 'alarm');
local $SIG{ALRM} = sub { };
alarm 1;
expect(!defined $queue->rcv($text, 20, 4) && $!{EINTR}, 'EINTR');

# A wait ends when the queue is removed.
$child = fork // die "fork: $!\n";
exit(!defined $queue->rcv($text, 20, 4) && $!{EIDRM} ? 0 : 1) if $child == 0;
select undef, undef, undef, 0.3;
expect($queue->remove, 'remove');
waitpid $child, 0;
expect($? == 0, 'EIDRM');
expect(!IPC::Msg->new($key, 0) && $!{ENOENT}, 'the key of a removed queue');
