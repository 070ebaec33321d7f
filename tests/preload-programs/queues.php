<?php
// What a program in PHP does with message queues.
function expect($holds, $what)
{
    if (!$holds) {
        echo "$what\n";
        exit(1);
    }
}

expect(!msg_queue_exists(0x5e58), 'there is a queue already');
$queue = msg_get_queue(0x5e58, 0600);
expect($queue && msg_queue_exists(0x5e58), 'msg_get_queue');
expect(msg_send($queue, 5, ['a' => 1, 'b' => [2, 3]]), 'msg_send of an array');
expect(msg_send($queue, 3, 'plain', false, false), 'msg_send of a text');
expect(msg_receive($queue, -9, $type, 100, $text, false) && $type === 3 && $text === 'plain', 'msg_receive');
expect(msg_receive($queue, 0, $type, 8192, $array) && $type === 5 && $array === ['a' => 1, 'b' => [2, 3]], 'an array');
expect(!@msg_receive($queue, 0, $type, 100, $text, false, MSG_IPC_NOWAIT, $error) && $error === MSG_ENOMSG, 'ENOMSG');
expect(msg_send($queue, 1, 'too long', false), 'msg_send');
expect(!@msg_receive($queue, 0, $type, 3, $text, false, 0, $error) && $error === 7, 'E2BIG');
expect(msg_receive($queue, 0, $type, 3, $text, false, MSG_NOERROR) && $text === 'too', 'MSG_NOERROR');
$stat = msg_stat_queue($queue);
expect($stat['msg_perm.uid'] === posix_geteuid() && $stat['msg_perm.mode'] === 0600 && $stat['msg_qnum'] === 0
    && $stat['msg_qbytes'] === 16384 && $stat['msg_lspid'] === getmypid(), 'msg_stat_queue');
expect(msg_set_queue($queue, ['msg_perm.mode' => 0640, 'msg_qbytes' => 100]), 'msg_set_queue');
$stat = msg_stat_queue($queue);
expect($stat['msg_perm.mode'] === 0640 && $stat['msg_qbytes'] === 100, 'msg_stat_queue after it');
expect(!@msg_send($queue, 1, str_repeat('x', 101), false, false, $error) && $error === MSG_EAGAIN, 'EAGAIN');
expect(msg_remove_queue($queue) && !msg_queue_exists(0x5e58), 'msg_remove_queue');
