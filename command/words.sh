# What a refusal or a report says, in words, as one line on standard error. Sourced by `judge`.
# The numbers are those that the program tells: crates/judge/specs/Printed.antt.

# "1 message", "2 messages"
counted() { # NUMBER NOUN
    if [ "$1" -eq 1 ]; then printf '1 %s' "$2"; else printf '%s %ss' "$1" "$2"; fi
}

# Document 01, "When the desk says no".
words_of_refusal() { # NUMBER PLACE
    [ "$quiet" -eq 0 ] || return 0
    case $1 in
    1) say 'refused 1: the sheet has under 16 bytes, too few for a header' ;;
    2) say 'refused 2: the number of boards, communicators, operations or payload bytes is outside its range' ;;
    3) say "refused 3: an offset, or the sheet's length, differs from what the sizes in the header give in either edition" ;;
    4) say "refused 4: the CRC differs: a byte was changed, or the CRC is wrong" ;;
    5) say "refused 5 at rank $2: the board entry is wrong (first operation, attached size, inbox or standard room); if there is no rank $2, the counts do not total the operations" ;;
    6) say "refused 6 at operation $2: a field of it is wrong" ;;
    7) say "refused 7 at operation $2: its request slot is taken or not held, its area shares a byte with a held one, or it is never waited for" ;;
    *) say "refused $1 at place $2" ;;
    esac
}

# Document 01, "The report"; premise's numbers are ours. Where all boards finished, every request was waited for (document 02, K7):
# no receive is pending, and what is not delivered stands in attached buffers and standard rooms. Only the first can overflow: a standard
# send that does not fit its room waits (document 02, K6). In a deadlock a board hangs on what is pending, its own send or receive, or on a
# probe (document 02, K9): where nothing is pending, each unfinished one is at a probe.
words_of_report() { # VERDICT STOP-RANK STOP-OPERATION STEPS BOARDS OPERATIONS MESSAGES RECEIVES CUT PREMISE PLACE
    [ "$quiet" -eq 0 ] || return 0
    case $1:$7:$8 in
    1:0:*) verdict='verdict 1, finished' ;;
    1:*) verdict='verdict 1, finished, but not all is delivered' ;;
    2:0:0) verdict='verdict 2, deadlock: no board is able, and each unfinished one probes for a message that has not come' ;;
    2:*) verdict='verdict 2, deadlock: no board is able' ;;
    3:*) verdict="verdict 3, overflow: the attached buffer of rank $2 has no room for operation $3" ;;
    4:*) verdict="verdict 4, not ready: operation $3 of rank $2 is a ready send, and no receive that fits is posted" ;;
    *) verdict="verdict $1" ;;
    esac
    if [ "$7" -eq 0 ] && [ "$8" -eq 0 ]; then
        pending='nothing is pending'
    else
        pending="pending: $(counted "$7" message), $(counted "$8" receive)"
    fi
    steps=$(counted "$4" step)
    cut=
    [ "$9" -eq 0 ] || cut="; $(counted "$9" message) cut"
    shift 9
    case $1 in
    0) order='holds for every order' ;;
    20) order="another order may end otherwise: operation $2 receives or probes from any source" ;;
    21) order="another order may end otherwise: operation $2 is a ready send" ;;
    22) order="another order may end otherwise: the attached buffer of rank $2 does not cover all its buffered sends" ;;
    23) order="another order may end otherwise: operation $2 is a status query" ;;
    24) order="another order may end otherwise: the standard room of rank $2 does not cover all its standard sends" ;;
    *) order="another order may end otherwise: $1 at place $2" ;;
    esac
    say "$verdict; $steps; $pending$cut; $order"
}
