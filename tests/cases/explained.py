"""Records, with what `tcapjudge explain` prints of them, word for word: `tests/explain.py` runs them. They are written as in
judged.py: the entries, the words behind the paths, the certificate, where one is given, the status, what is printed, and, where it is
not that of judged.py, the table."""

import judged
from alone import (
    BEGIN_4,
    CLOSED_1,
    CONTINUE_3,
)
from blamed import (
    BEGIN_2,
    BEGIN_7,
    DUPLICATE,
    END_1,
    UNHEARD,
)
from judged import (
    ACCEPTED,
    AGAIN,
    BACK,
    BAD_VERSION,
    BEGIN,
    CLASS_3,
    CLOSED,
    CONTINUE,
    END,
    ERROR,
    INVOKE,
    LINKED,
    LONE,
    NO_MESSAGE,
    OTHER,
    REFUSED,
    REQUEST,
    RESULT,
    TO_NINE,
    TWICE,
    UNEXPECTED,
    UNRECOGNIZED,
    WITH_RESULT,
)

ROWS = [
    (
        "",
        [],
        None,
        0,
        """\
LAWFUL 0
  one run that shows it:
""",
    ),
    # The certificate that is proposed gives no run of both ends, and for each end there is one.
    (
        f"A {BEGIN} B {CONTINUE} A {BACK} B {END_1} A {BACK}",
        [],
        None,
        0,
        """\
LAWFUL 5
LAWFUL A 5 unheard 0
  one run that shows it:
  A sends 0 Begin otid=01
  B tells 1 Continue otid=02 dtid=01
  A receives 1
  A sends 2 Continue otid=01 dtid=02
  B tells 3 End dtid=01
  A sends 4 Continue otid=01 dtid=02
  A receives 3
LAWFUL B 5 unheard 1
  one run that shows it:
  A tells 0 Begin otid=01
  B receives 0
  B sends 1 Continue otid=02 dtid=01
  A tells 2 Continue otid=01 dtid=02
  B receives 2
  B sends 3 End dtid=01
  A tells 4 Continue otid=01 dtid=02
  B could not receive 4: no half fits
""",
    ),
    (
        f"A {REQUEST} B {ACCEPTED} A {END}",
        [],
        None,
        0,
        """\
LAWFUL 3
  one run that shows it:
  A sends 0 Begin otid=01 AARQ context=04000001001302
  B receives 0
  B sends 1 Continue otid=02 dtid=01 AARE context=04000001001302 result=0 user=0
  A receives 1
  A sends 2 End dtid=02
  B receives 2
""",
    ),
    (
        f"A {BEGIN} B {CONTINUE} A {END} B {CONTINUE} A {CLOSED}",
        [],
        None,
        0,
        """\
LAWFUL 5
  one run that shows it:
  A sends 0 Begin otid=01
  B receives 0
  B sends 1 Continue otid=02 dtid=01
  A receives 1
  A sends 2 End dtid=02
  B sends 3 Continue otid=02 dtid=01
  B receives 2
  A's provider answers 3 by 4
  B receives 4
""",
    ),
    (
        f"A {BEGIN} B {CONTINUE} A {CLOSED}",
        [],
        None,
        0,
        """\
LAWFUL 3
  one run that shows it:
  A sends 0 Begin otid=01
  B receives 0
  B sends 1 Continue otid=02 dtid=01
  A: the half with otid=01 closes unseen
  A's provider answers 1 by 2
  B receives 2
""",
    ),
    (
        f"A {INVOKE} B {REFUSED}",
        [],
        None,
        0,
        """\
LAWFUL 2
  one run that shows it:
  A sends 0 Begin otid=01
  B's provider answers 0 by 1
  A receives 1
""",
    ),
    (
        f"A {INVOKE} B {WITH_RESULT} A {UNRECOGNIZED}",
        [],
        None,
        0,
        """\
LAWFUL 3
  one run that shows it:
  A sends 0 Begin otid=01
  B receives 0
  B sends 1 Continue otid=02 dtid=01
  A: invocation 1 of otid=01 ends unseen
  A receives 1
  A sends 2 End dtid=02
  B receives 2
""",
    ),
    (
        f"A {INVOKE} B {WITH_RESULT} A {UNRECOGNIZED}",
        [],
        None,
        2,
        """\
UNDECIDED 0 66/51
  why: in the run that the certificate says, what is listed for it may not happen there (HiddenRefused): the invocation may not end unseen (CannotExpire)
  0 A Begin otid=01
    Invoke id=1 op=45
  listed: before entry 2 A's invocation of its component 0 ends unseen
  2 A End dtid=02
    Reject id=1 result=0
  another certificate may show more: this says nothing of an end
NOT BLAMED A 3
  no fault is found; that does not clear it
LAWFUL B 3 unheard 0
""",
        judged.LASTING,
    ),
    (
        f"A {BEGIN} B {CONTINUE} A {END} A {OTHER} B {CONTINUE} A {CLOSED}",
        [],
        None,
        0,
        """\
LAWFUL 6
  one run that shows it:
  A sends 0 Begin otid=01
  B receives 0
  B sends 1 Continue otid=02 dtid=01
  A receives 1
  A sends 2 End dtid=02
  A sends 3 Begin otid=03
  2 is taken as lost
  B receives 3
  B sends 4 Continue otid=02 dtid=01
  A's provider answers 4 by 5
  B receives 5
""",
    ),
    (
        f"A {LONE}",
        [],
        None,
        0,
        """\
LAWFUL 1
  one run that shows it:
  A sends 0 Unidirectional
  B receives 0
""",
    ),
    (
        f"A {INVOKE} B {RESULT} Q A {INVOKE} B {RESULT}",
        [],
        None,
        0,
        """\
LAWFUL 5
  one run that shows it:
  A sends 0 Begin otid=01
  B receives 0
  B sends 1 End dtid=01
  A receives 1
  all is quiet
  A sends 3 Begin otid=01
  B receives 3
  B sends 4 End dtid=01
  A receives 4
""",
    ),
    (
        f"A {TWICE}",
        [],
        None,
        2,
        """\
UNDECIDED 0 65/45
  why: in the run that the certificate says, its end may not send it there (SendRefused): an invoke ID of it is in use (InvokeIdBusy)
  0 A Begin otid=01
    Invoke id=1 op=45
    Invoke id=1 op=45
  component 1 is what it refuses:
    Invoke id=1 op=45
  another certificate may show more: this says nothing of an end
BLAMED A 0 F10
  entry 0 of A, component 1: it invokes an ID that is in use
    Begin otid=01
      Invoke id=1 op=45
  A: Invokes of 1 before it: entry 0
LAWFUL B 1 unheard 0
""",
    ),
    (
        f"A {INVOKE} B {CONTINUE} B {WITH_RESULT} A {AGAIN} A {UNEXPECTED}",
        [],
        None,
        2,
        """\
UNDECIDED 4 65/50
  why: in the run that the certificate says, its end may not send it there (SendRefused): nothing there may be rejected so (RejectNotAllowed)
  4 A Continue otid=01 dtid=02
    Reject id=1 result=1
  A: the half with otid=01 peer 02: active, no dialogue
  component 0 is what it refuses:
    Reject id=1 result=1
      before this message, under 1: own invocation op=46, operation sent; invocations received and not answered 0; results received 1, errors 0
  another certificate may show more: this says nothing of an end
NOT BLAMED A 5
  no fault is found; that does not clear it
LAWFUL B 5 unheard 0
""",
    ),
    (
        f"A {INVOKE} B {LINKED}",
        [],
        None,
        2,
        """\
UNDECIDED 1 65/49
  why: in the run that the certificate says, its end may not send it there (SendRefused): a linked ID of it names nothing to which it may be linked (BadLink)
  1 B Continue otid=02 dtid=01
    Invoke id=5 linked=1 op=48
  B: the half with peer 01: it received the Begin, no dialogue
  component 0 is what it refuses:
    Invoke id=5 linked=1 op=48
      before this message, under 5: no own invocation; invocations received and not answered 0; results received 0, errors 0
      before this message, under 1: no own invocation; invocations received and not answered 1 op=45; results received 0, errors 0
  another certificate may show more: this says nothing of an end
BLAMED B 1 F11
  entry 1 of B, component 0: it is linked to an invocation that its end did not receive, has answered, or may not link it to
    Continue otid=02 dtid=01
      Invoke id=5 linked=1 op=48
  the transaction of B: began by the peer's Begin
  A: Invokes of 1 in this transaction: entry 0
  invocation 1 in entry 0 is of 45, of class 1
LAWFUL A 2 unheard 0
""",
    ),
    (
        f"A {BEGIN} B {CONTINUE} A {END} B {CONTINUE}",
        [],
        judged.proposed("1,2,4,4"),
        2,
        """\
NOT SHOWN 3 64
  why: in the run that the certificate says, the message can't be received or answered where it comes (BadReply)
  3 B Continue otid=02 dtid=01
  A: the half with otid=01 is closed
  it can't receive it: no half has its ID, or fits it (NoTransaction)
  another certificate may show more: this says nothing of an end
LAWFUL A 4 unheard 1
LAWFUL B 4 unheard 0
""",
    ),
    (
        f"A {BAD_VERSION}",
        [],
        None,
        2,
        """\
UNDECIDED 0 68/12
  why: its octets are no message (BadMessage)
  0 A FAULT 12 23
  `tcapjudge show --why RECORD` says what is wrong with them
  it is a limit of this profile: no end is blamed for it
NOT BLAMED A 0
  entry 0 is no message, and nothing from there on is looked at
NOT BLAMED B 0
  entry 0 is no message, and nothing from there on is looked at
""",
    ),
    (
        f"A {BEGIN} Q",
        [],
        judged.proposed("1,2"),
        2,
        """\
NOT SHOWN 1 67
  why: in the run that the certificate says, not all is quiet at the mark (NotQuiet)
  1 Q
  A: the half with otid=01: it sent its Begin, no dialogue
  B: the half with peer 01: it received the Begin, no dialogue
  another certificate may show more: this says nothing of an end
LAWFUL A 2 unheard 0
LAWFUL B 2 unheard 1
""",
    ),
    (
        f"A {REQUEST} B {ACCEPTED} A 67174901026B122810060700118605010101A0056403800101",
        [],
        None,
        2,
        """\
UNDECIDED 2 65/43
  why: in the run that the certificate says, its end may not send it there (SendRefused): its dialogue portion, or that it has none, does not fit (WrongDialogue)
  2 A Abort dtid=02 ABRT source=1
  A: the half with otid=01 peer 02: active, a dialogue is confirmed
  another certificate may show more: this says nothing of an end
NOT BLAMED A 3
  no fault is found; that does not clear it
LAWFUL B 3 unheard 0
""",
    ),
    (
        f"A {NO_MESSAGE}",
        [],
        None,
        1,
        """\
REFUTED 0 F1
  entry 0 of A: its octets are no message
  `tcapjudge show --why RECORD` says what is wrong with its octets
BLAMED A 0 F1
NOT BLAMED B 0
  entry 0 is no message, and nothing from there on is looked at
""",
    ),
    (
        f"A {INVOKE} B {TO_NINE}",
        [],
        None,
        1,
        """\
REFUTED 1 F2
  entry 1 of B: its peer sent nothing from the destination ID that it could answer
    End dtid=09
  A: Begins from its destination ID: none
  A: Continues from its destination ID: none
  it may be, too, that a message of the peer is missing from the record
BLAMED B 1 F2
LAWFUL A 2 unheard 0
""",
    ),
    (
        f"A {BEGIN} B {CLOSED_1}",
        [],
        None,
        1,
        """\
REFUTED 1 F2
  entry 1 of B: its peer sent nothing from the destination ID that it could answer
    Abort dtid=01 cause=1
  A: Begins from its destination ID: entry 0
  A: Continues from its destination ID: none
  it may be, too, that a message of the peer is missing from the record
BLAMED B 1 F2
LAWFUL A 2 unheard 0
""",
    ),
    (
        f"A {INVOKE} Q B {RESULT}",
        [],
        None,
        1,
        """\
REFUTED 2 F2
  entry 2 of B: its peer sent nothing from the destination ID that it could answer
    End dtid=01
  A: Begins from its destination ID: none
  A: Continues from its destination ID: none
  it may be, too, that a message of the peer is missing from the record
BLAMED B 2 F2
LAWFUL A 3 unheard 0
""",
    ),
    (
        f"A {BEGIN} A {OTHER} B {CONTINUE} B 6506480102490103",
        [],
        None,
        1,
        """\
REFUTED 3 F3
  entry 3 of B: its end has used the originating ID
    Continue otid=02 dtid=03
  B: Continues from its originating ID to another ID before it: entry 2
  it may be, too, that a quiet mark is missing, behind which IDs are free again, or a message
BLAMED B 3 F3
LAWFUL A 4 unheard 1
""",
    ),
    (
        f"A {BEGIN} B {CONTINUE} A 650F4801014901026C07A4050500800100",
        [],
        None,
        1,
        """\
REFUTED 2 F5
  entry 2 of A, component 0: it answers or rejects what its peer never sent
    Continue otid=01 dtid=02
      Reject id=null general=0
BLAMED A 2 F5
LAWFUL B 3 unheard 0
""",
    ),
    (
        f"A {CLASS_3} B {ERROR}",
        [],
        None,
        1,
        """\
REFUTED 1 F6
  entry 1 of B, component 0: it invokes or answers an operation as the table does not allow
    End dtid=01
      ReturnError id=1 error=1
  A: Invokes of 1 from its destination ID: entry 0
  A: Invokes of 1 of class 3 from its destination ID: entry 0
  invocation 1 in entry 0 is of 47, of class 3
BLAMED B 1 F6
LAWFUL A 2 unheard 0
""",
    ),
    (
        "A 620D4801016C08A106020101020163",
        [],
        None,
        1,
        """\
REFUTED 0 F6
  entry 0 of A, component 0: it invokes or answers an operation as the table does not allow
    Begin otid=01
      Invoke id=1 op=99
  the table lacks this operation
BLAMED A 0 F6
LAWFUL B 1 unheard 0
""",
    ),
    (
        f"A {BEGIN} B {BEGIN_7} A {UNHEARD}",
        [],
        None,
        2,
        """\
UNDECIDED 2 65/42
  why: in the run that the certificate says, its end may not send it there (SendRefused): the half is not in a phase for it (WrongPhase)
  2 A Continue otid=01 dtid=07
  A: the half with otid=01: it sent its Begin, no dialogue
  another certificate may show more: this says nothing of an end
BLAMED A 2 F8
  entry 2 of A: its end has no transaction over which it may send it
    Continue otid=01 dtid=07
  the transaction of A: began by the peer's Begin
  B: Begins from its destination ID: entry 1
  B: Continues from its destination ID: none
  A: Begins from the own ID: entry 0
LAWFUL B 3 unheard 1
""",
    ),
    (
        f"A {REQUEST} B {CONTINUE}",
        [],
        None,
        2,
        """\
UNDECIDED 1 65/43
  why: in the run that the certificate says, its end may not send it there (SendRefused): its dialogue portion, or that it has none, does not fit (WrongDialogue)
  1 B Continue otid=02 dtid=01
  B: the half with peer 01: it received the Begin, a dialogue is asked for
  another certificate may show more: this says nothing of an end
BLAMED B 1 F9
  entry 1 of B: its dialogue portion does not fit how the dialogue stands
    Continue otid=02 dtid=01
  the transaction of B: began by the peer's Begin
  A: Begins from its destination ID: entry 0
  A: Begins with AARQ from its destination ID: entry 0
LAWFUL A 2 unheard 1
""",
    ),
    (
        f"A {INVOKE} B {DUPLICATE}",
        [],
        None,
        2,
        """\
UNDECIDED 1 65/50
  why: in the run that the certificate says, its end may not send it there (SendRefused): nothing there may be rejected so (RejectNotAllowed)
  1 B End dtid=01
    Reject id=1 invoke=0
  B: the half with peer 01: it received the Begin, no dialogue
  component 0 is what it refuses:
    Reject id=1 invoke=0
      before this message, under 1: no own invocation; invocations received and not answered 1 op=45; results received 0, errors 0
  another certificate may show more: this says nothing of an end
BLAMED B 1 F13
  entry 1 of B, component 0: it rejects with a problem that nothing received has
    End dtid=01
      Reject id=1 invoke=0
  the transaction of B: began by the peer's Begin
  A: Invokes of 1 in this transaction: entry 0
  invocation 1 in entry 0 is of 45, of class 1
LAWFUL A 2 unheard 0
""",
    ),
    (
        f"A {BEGIN} B {REFUSED} B {REFUSED}",
        [],
        None,
        2,
        """\
UNDECIDED 1 64
  why: in the run that the certificate says, the message can't be received or answered where it comes (BadReply)
  1 B Abort dtid=01 cause=4
  it is a provider's answer, and the messages that the certificate says it answers are none
  another certificate may show more: this says nothing of an end
BLAMED B 2 F14
  entry 2 of B: it is an Abort of the provider that answers nothing which is left
    Abort dtid=01 cause=4
  A: Begins from its destination ID: entry 0
  A: Continues from its destination ID: none
  B: Aborts with cause 4 to its destination ID before it: entry 1
LAWFUL A 3 unheard 0
""",
    ),
    (
        f"A {INVOKE} B {CONTINUE} A {AGAIN}",
        [],
        None,
        0,
        """\
LAWFUL 3
  one run that shows it:
  A sends 0 Begin otid=01
  B receives 0
  B sends 1 Continue otid=02 dtid=01
  A receives 1
  A: invocation 1 of otid=01 ends unseen
  A sends 2 Continue otid=01 dtid=02
  B receives 2
""",
    ),
    (
        f"A {BEGIN} B {CONTINUE} A {BACK} Q",
        [],
        None,
        2,
        """\
UNDECIDED 3 67
  why: in the run that the certificate says, not all is quiet at the mark (NotQuiet)
  3 Q
  A: the half with otid=01 peer 02: active, no dialogue
  B: the half with otid=02 peer 01: active, no dialogue
  another certificate may show more: this says nothing of an end
BLAMED A 3 F15
  entry 3: a transaction of A is open at this quiet mark
  A: Continues of transactions that are open: entry 2
  it may be, too, that the mark was set too early, or that an End is missing from the record
BLAMED B 3 F15
  entry 3: a transaction of B is open at this quiet mark
  B: Continues of transactions that are open: entry 1
  it may be, too, that the mark was set too early, or that an End is missing from the record
""",
    ),
    (
        f"B {BEGIN} A {CONTINUE} B {END} B {BACK} A {CLOSED_1}",
        [],
        None,
        1,
        """\
REFUTED 3 F4
  entry 3 of B: its end has ended this dialogue
    Continue otid=01 dtid=02
  B: Ends and user Aborts to its destination ID before it: entry 2
BLAMED B 3 F4
LAWFUL A 5 unheard 0
""",
    ),
    (
        f"B {BEGIN} A {CONTINUE} B {END} B {BACK} A {CLOSED_1}",
        ["--end", "A"],
        None,
        0,
        """\
LAWFUL 5 unheard 0
  one run that shows it:
  B tells 0 Begin otid=01
  A receives 0
  A sends 1 Continue otid=02 dtid=01
  B tells 2 End dtid=02
  A receives 2
  B tells 3 Continue otid=01 dtid=02
  A's provider answers 3 by 4
""",
    ),
    (
        f"B {BEGIN} A {CONTINUE} B {END} B {BACK} A {END_1}",
        ["--end", "A"],
        None,
        0,
        """\
LAWFUL 5 unheard 1
  one run that shows it:
  B tells 0 Begin otid=01
  A receives 0
  A sends 1 Continue otid=02 dtid=01
  B tells 2 End dtid=02
  B tells 3 Continue otid=01 dtid=02
  2 is taken as lost before A
  A receives 3
  A sends 4 End dtid=01
""",
    ),
    (
        f"B {BEGIN} A {CONTINUE} B {END} B {BACK} A {CONTINUE_3}",
        ["--end", "A"],
        None,
        1,
        """\
REFUTED 4 F8
  entry 4 of A: its end has no transaction over which it may send it
    Continue otid=03 dtid=01
  the transaction of A: began by the peer's Begin, own ID 02
  B: Begins from its destination ID: entry 0
  B: Continues from its destination ID: entry 3
  A: Begins from the own ID: none
  A: Continues to its destination ID before it: entry 1
""",
    ),
    (
        f"A {BEGIN} B {CONTINUE} A {END} B {CONTINUE}",
        ["--end", "A"],
        None,
        0,
        """\
LAWFUL 4 unheard 1
  one run that shows it:
  A sends 0 Begin otid=01
  B tells 1 Continue otid=02 dtid=01
  A receives 1
  A sends 2 End dtid=02
  B tells 3 Continue otid=02 dtid=01
  A could not receive 3: no half fits
""",
    ),
    (
        f"B {BEGIN} B {BEGIN}",
        ["--end", "A"],
        None,
        0,
        """\
LAWFUL 2 unheard 1
  one run that shows it:
  B tells 0 Begin otid=01
  A receives 0
  B tells 1 Begin otid=01
  A could not receive 1: the ID is used
""",
    ),
    (
        f"A {REQUEST} B {CONTINUE}",
        ["--end", "A"],
        None,
        0,
        """\
LAWFUL 2 unheard 1
  one run that shows it:
  A sends 0 Begin otid=01 AARQ context=04000001001302
  B tells 1 Continue otid=02 dtid=01
  A could not receive 1: the dialogue portion does not fit
""",
    ),
    (
        f"B {BEGIN_2} A {BEGIN} B {CONTINUE}",
        ["--end", "A"],
        None,
        0,
        """\
LAWFUL 3 unheard 1
  one run that shows it:
  B tells 0 Begin otid=02
  A receives 0
  A sends 1 Begin otid=01
  B tells 2 Continue otid=02 dtid=01
  A could not receive 2: the ID is used
""",
    ),
    (
        f"A {BEGIN} Q",
        ["--end", "A"],
        None,
        0,
        """\
LAWFUL 2 unheard 0
  one run that shows it:
  A sends 0 Begin otid=01
  A: the half with otid=01 closes unseen
  all is quiet
""",
    ),
    (
        f"A {BEGIN} Q",
        ["--end", "B"],
        None,
        0,
        """\
LAWFUL 2 unheard 1
  one run that shows it:
  A tells 0 Begin otid=01
  0 is taken as lost before B
  all is quiet
""",
    ),
    (
        f"A {BEGIN} B {CONTINUE} Q",
        ["--end", "A"],
        None,
        0,
        """\
LAWFUL 3 unheard 1
  one run that shows it:
  A sends 0 Begin otid=01
  B tells 1 Continue otid=02 dtid=01
  A: the half with otid=01 closes unseen
  1 is taken as lost before A
  all is quiet
""",
    ),
    (
        f"A {INVOKE} B {RESULT}",
        [],
        '{"close":[],"expire":[],"fates":[1],"version":1}',
        2,
        """\
NOT SHOWN 1 61
  why: there are not as many fates as entries (FateCount)
  1 B End dtid=01
    ReturnResultLast id=1
  another certificate may show more: this says nothing of an end
LAWFUL A 2 unheard 0
LAWFUL B 2 unheard 0
""",
    ),
    (
        f"A {BEGIN} B {NO_MESSAGE}",
        [],
        '{"close":[],"expire":[],"fates":[1,2],"version":1}',
        2,
        """\
NOT SHOWN 1 68/11
  why: its octets are no message (BadMessage)
  1 B FAULT 11 12
  `tcapjudge show --why RECORD` says what is wrong with them
BLAMED B 1 F1
  entry 1 of B: its octets are no message
  `tcapjudge show --why RECORD` says what is wrong with its octets
NOT BLAMED A 1
  entry 1 is no message, and nothing from there on is looked at
""",
    ),
    (
        f"A {BEGIN} A {OTHER} A {BEGIN_4}",
        [],
        '{"close":[],"expire":[],"fates":[3,2,3],"version":1}',
        2,
        """\
NOT SHOWN 1 63
  why: the message would come before an earlier one of its end (OutOfOrder)
  1 A Begin otid=03
  another certificate may show more: this says nothing of an end
LAWFUL A 3 unheard 0
LAWFUL B 3 unheard 0
""",
    ),
    (
        f"A {BEGIN} A {OTHER} A {BEGIN_4}",
        ["--end", "A"],
        '{"close":[],"expire":[],"fates":[3,2,3],"version":1}',
        0,
        """\
LAWFUL 3 unheard 0
  one run that shows it:
  A sends 0 Begin otid=01
  A sends 1 Begin otid=03
  A sends 2 Begin otid=04
""",
    ),
    (
        f"A {BEGIN} B {CONTINUE}",
        ["--end", "B"],
        '{"close":[{"at":1,"end":"B","entry":0}],"expire":[],"fates":[1,2],"version":1}',
        2,
        """\
NOT SHOWN 0 66/52
  why: in the run that the certificate says, what is listed for it may not happen there (HiddenRefused): the half may not close unseen (CannotClose)
  0 A Begin otid=01
  listed: before entry 1 B's half of its transaction closes unseen
  1 B Continue otid=02 dtid=01
  another certificate may show more: this says nothing of an end
""",
    ),
    (
        f"B {BEGIN} A {CONTINUE}",
        ["--end", "A"],
        '{"close":[],"expire":[],"fates":[2,2],"version":1}',
        2,
        """\
NOT SHOWN 1 65/40
  why: in the run that the certificate says, its end may not send it there (SendRefused): no half has its ID, or fits it (NoTransaction)
  1 A Continue otid=02 dtid=01
  A: no half with peer 01
  another certificate may show more: this says nothing of an end
""",
    ),
]
