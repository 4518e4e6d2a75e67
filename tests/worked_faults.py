"""Texts with the errors that were found by hand, for tests/faults_of_texts.py.

A row is a text, and its messages in order. Each has the place, the name unless it is BadToken, the node if it has one,
and what helps, after HINTS: `2:12 UndefinedLabel 709 near loop`, or `1:10 near dup`. `worked` gives all rows.
"""
from faulty_texts import NODES

HINTS = {
    "near": "the nearest name is {0}",
    "use": "{0} is a body: use {0}",
    "label": "{0} is a label: call {0}, or &{0} for its address; in data , {0}",
    "expression": "an expression stands only behind const", "first": "definitions come first",
    "open": "the body {0} has no end",
    "words": "it needs {2} words: {0} code, {1} data; {3} over",
}
# Which errors are found: in sections, in the definitions, of a node that comes twice.
ERRORS = [
    ("node 708 frob\nnode 709 .\n", "1:10"), ("node 708 .\nnode 708 .\n", "2:6 DuplicateNode"), ("", "1:1 NoNode"),
    ("node 708 frob\nnode 709 frob frob\nnode 710 jump gone\n", "1:10", "2:10", "3:15 UndefinedLabel 710"),
    ("node 708 jump gone\nnode 709 frob\n", "1:15 UndefinedLabel 708", "2:10"), ("\n\n", "3:1 NoNode"),
    ("node 708 jump gone\nnode 709 .\nnode 708 .\n", "1:15 UndefinedLabel 708", "3:6 DuplicateNode"),
    ("node 708 jump gone\nnode 708 jump gone\n", "1:15 UndefinedLabel 708", "2:6 DuplicateNode",
     "2:15 UndefinedLabel 708"),
    ("body B frob\n  .\nend\nnode 708 use C\nnode 709 to 000\n", "4:14 UnknownBody", "5:13 NoNeighbour"),
    ("node 709\n  to 000 b!\n", "2:6 NoNeighbour"), ("node 708 frob\nnode 709 to 000\n", "1:10", "2:13 NoNeighbour"),
    ("body B\n  # jump gone\nend\nnode 708 use B\nnode 709 use B\n", "2:3"), ("node 708 frob node 709 frob\n", "1:10"),
    ("body B\n  jump gone\nend\nnode 708 use B\nnode 709 use B\n", "2:8 UndefinedLabel 708", "2:8 UndefinedLabel 709"),
    ("body B\nnode 708 frob\nend\nuse B\n", "2:10"), ("const A #\nnode 708 frob\nnode 709 jump gone\n", "1:9"),
    ("const A node\nnode 708 frob\nnode 709 frob\n", "1:9"), ("const\nnode 5\nnode 708 frob\n", "2:1 ReservedName"),
    ("const A 1 node 708 frob\nnode 709 frob\n", "1:20"), ("frob\nnode 708 #\nnode 709 #\n", "1:1 NoNode"),
    ("const A 1 node 708 .\nnode 709 frob\nnode 710 frob\n", "2:10", "3:10"), ("node 708 -1\nnode 709 frob\n", "2:10"),
    ("body B\nnode 708 frob\nnode 709 frob\n", "1:1 OpenDefinition open B"), ("node 709 jump", "1:14"),
    ("node 708 . node 709 frob\nnode 710 frob\n", "1:21", "2:10"), ("node 708 frob\nnode 709 frob", "1:10", "2:10"),
    ("node 708,709 frob jump gone\nnode 710 #\n", "1:14", "2:10"), ("node 708\nnode 709 .\n", "1:9 Empty", "2:1 Empty"),
    ("node 708,709 jump gone\nnode 710 #\n", "1:19 UndefinedLabel 708", "2:10"), ("node 709\n\tdup frob\n", "2:6"),
    ("node 999 .\nnode 708 frob\nnode\n", "1:6 BadNode", "2:10", "4:1 BadNode"),
    ("node 708 .\n\\ node 709 frob\n  \tnode 710 frob\n", "3:13"), ("const A 1\nconst B A+\n", "2:9"),
    ("node 708 -131073\nnode 709 é\nnode 710 262144\n", "1:10 NumberRange", "2:10", "3:10 NumberRange"),
    ("node 708 frob\r\nnode 709 frob\r\n", "1:10", "2:10"),
    ("node 708\n\n  node 709\n\\ nothing\nnode 710 .\n", "2:1 Empty", "3:3 Empty", "4:10 Empty"),
    ("node 708 [ dup\nnode 709 jump\nnode 710 , 5", "1:15 OpenBracket", "2:1 BadWord", "2:14", "3:10"),
    ("node 708 .\nnode 709 use\n\nnode 710 frob\n", "2:10 OpenDefinition", "4:1 UnknownBody", "4:10"),
]  # fmt: skip
# The same of 20 and 21 sections, and behind 144 of them.
FROB, GONE, FINE = ([f"node {name} {word}\n" for name in NODES] for word in ("frob", "jump gone", "."))
FROB_20 = [f"{line}:10" for line in range(1, 21)]
GONE_19 = [f"{line}:15 UndefinedLabel {name}" for line, name in enumerate(NODES[:19], 1)]
MANY = [
    *(("".join(it), *FROB_20) for it in (FROB[:20], FROB[:21], [*FROB[:20], FINE[0]])),
    ("".join([*GONE[:20], FROB[-1]]), *GONE_19, "21:10"),
    ("".join([*GONE[:20], FINE[0]]), *GONE_19, "21:6 DuplicateNode"),
    ("".join([*FINE, *FROB[:2]]), "145:6 DuplicateNode"), ("".join([*FINE[:-1], *FROB[-1:], FROB[0]]), "144:10"),
]
# What helps with words behind `node 709`: a letter more, less or another, two that are swapped, another case; nothing
# is near, or the word is known, but in a wrong place; an expression that is no constant's value.
WORDS = {
    "near dup": ["dupp", "DUP"], "near jump": ["jmp"], "near next": ["nuxt 5"], "near push": ["puhs", "PUSH Dup"],
    "near unext": ["unxet"], "near @b": ["@B"], "near -if": ["-fi 5"], "near align": ["alig ."], "near warm": ["wram"],
    "near data": ["dtaa , 5"], "near right": ["rihgt b!", "RIGHT b!"], "near east": ["esat b! @b"],
    "near north": ["nort b! !b"], "near over": ["ovre"],
    "": ["frob", "#", "dddp", "END", "end", "include", "@p", "@P a!", "!P", "my-label", "<<<<<<<", "a/b", "!bb", "-A", "//",
     "for", "north|east b!"],
    "first": ["const A 5", "body B"],
    "expression": ["2*3", "-5-3", "1<<4", "(1)>>(4)", "(5)", "2*(3)", "'A'+1", "7/2", "7%2", "-$5", "-(5)", "-right"],
}  # fmt: skip
# What helps with a word in front of the first node: one with which a text may begin; of two that are near the first
# one.
FIRST = {
    "near node": ["noed 709 .", "nod 709 .", "NODE 709 ."], "near const": ["cosnt SIZE 8", "Const A 5"],
    "near body": ["bdoy B", "bode 709 ."], "near include": ['inculde "lib"', "include: ."], "": ["dup", "end"],
}  # fmt: skip
# A constant, and what helps with a word behind `node 709`: its name or a nearer one, in any case and of any length.
LONG = "ABCDEFGHIJKLMNOP"
CONSTANTS = [
    ("LAST", "LATS", "near LAST"), ("PORTS", "PÖRTS", "near PORTS"), ("PORTS", "dropö", ""), ("X", "x", "near X"),
    ("dab", "dap", "near dup"), (LONG, LONG.lower(), f"near {LONG}"), (LONG, f"{LONG}QRSTUVWX", f"near {LONG}"),
    (LONG, f"{LONG}öööö", f"near {LONG}"), (LONG, f"{LONG}ööööQ", ""), ("SIZE", "SIZE-1", "expression"),
    ("SIZE", "SIZE|1", "expression"), ("SIZE", "2*(SIZE)", "expression"), ("SIZE", "-SIZE", "expression"),
]  # fmt: skip
SEND = "body SEND PORT\n  PORT b! !b\nend\n"
# What is behind SEND in a section `node 708`: a body, with `use` and without, and other words.
SENDS = [
    ("5 us SEND east", "4:12 near use"), ("5 send east", "4:12 near SEND"), ("5 use push east", "4:16 UnknownBody"),
    ("5 use send east", "4:16 UnknownBody near SEND"), ("5 use SEDN east", "4:16 UnknownBody near SEND"),
    ("5 SENT east", "4:12 near SEND"), ("5 use SEND rihgt", "4:21 near right"), ("5 SEND east", "4:12 use SEND"),
    ("[ SEND ]", "4:12 BadWord"), (". data , SEND", "4:19 UndefinedLabel 708"),
    ("5 call SEND", "4:17 UndefinedLabel 708"), (".\nnode 709 5 use SEDN east", "5:16 UnknownBody near SEND"),
]  # fmt: skip
# What is behind a line `node 709`: labels and constants that are near, and of those the nearest one, or the first.
LABELS = [
    ("Loop: . jump loop", "2:14", "Loop"), ("Loop: . &loop", "2:9", "Loop"), ("loop: dup\n  jump lop", "3:8", "loop"),
    ("lopp: .\nLOOP: jump loop", "3:12", "LOOP"), ("loop: dup\n  &lopo drop jump loop", "3:3", "loop"),
    ("  dup\ndata table: , 5 , tabel", "3:19", "table"), ("[ dup jump lop ] [ . ]\nloop: .", "2:12", "loop"),
    ("sender1: .\nsenders: jump sendrs", "3:15", "senders"), ("receive: .\nreceiver: jump receivr", "3:16", "receive"),
]  # fmt: skip
# What helps with one word of a text. An LF ends each of these texts.
HINTED = [
    ("node 709 [ dup ovr ]", "1:16 BadWord"), ("node 709 jump , 5", "1:15"), ("node 709 .\nnod 710 .", "2:1 near node"),
    ("noed 709 .", "1:1 NoNode near node"), ("\\ node 709 .", "2:1 NoNode"), ("node 709 . data b!", "1:17"),
    ("const A 5\nbdy B\n  .\nend\nnode 709 A", "2:1 NoNode near body"), ("node 709 dup:", "1:10 ReservedLabel"),
    ("node 709 unext", "1:10 UnextAlone 709"),
    # constants: in the value of another one only those before it, and nothing else; behind a `const` of the same
    # section
    ("const SIZE 8\nconst LAST SZIE\nnode 709 .", "2:12 near SIZE"), ("const SIZE dupp\nnode 709 .", "1:12"),
    ("const SIZE 8\nconst LAST 2*SZIE\nnode 709 .", "2:12"), ("const A LASTT\nconst LAST 5\nnode 709 .", "1:9"),
    ("const SIZE 8\nconst LAST size\nnode 709 .", "2:12 near SIZE"), ("const LAST LAST\nnode 709 .", "1:12"),
    ("const LAST 1\nconst LAST-2 5\nnode 709 .", "2:7"), ("node 709 SPED\nconst SPEED 5", "1:10 near SPEED"),
    ("node 708 .\nconst LAST 5\nnode 709 LATS", "2:1 first", "3:10"), ("const COUNT COUNR\nnode 709 .", "1:13"),
    ("node 708 .\nconst LAST 5\nnode 709 jump LATS", "2:1 first", "3:15 UndefinedLabel 709"),
    ("node 708 .\nbody SEND\n  .\nend\nnode 709 SENT", "2:1 first", "5:10"),
    ("const Speed 5\nconst spEED 6\nnode 709 SPEED", "3:10 near Speed"),
    ("const LAS 5\nconst LASTS 5\nnode 709 LASS", "3:10 near LAS"),
    ("const SIZE 8\nconst SIZES SIZ\nnode 709 .", "2:13 near SIZE"),
    # bodies: behind `use` no other names, and not the one that is being defined
    (f"const SENDS 5\n{SEND}node 708 use SENT east", "5:14 UnknownBody near SEND"),
    (f"{SEND}body TWICE\n  use SEN east\nend\nnode 708 5 use TWICE", "5:7 UnknownBody near SEND"),
    ("body SEND\n  .\nend\nbody SENDS\n  .\nend\nnode 708 use SENDSS", "7:14 UnknownBody near SENDS"),
    ("body stage\n  use stag\nend\nnode 709 use stage", "2:7 UnknownBody"),
    ("body B\n  drpo\nend\nnode 708 use B", "2:3 near drop"),
    ("body A\n  use BODY\nend\nbody BODY\n  .\nend\nnode 709 use A", "2:7 UnknownBody"),
    ("body SEND PORT\n  PROT b! !b\nend\nnode 708 use SEND east", "2:3"),
    # labels of the node, and constants; behind `&` labels alone; the nearest one, and of those the first
    ("node 709 jump puhs", "1:15 UndefinedLabel 709"), ("const LAST 5\nnode 709 &LAST drop", "2:10 UndefinedLabel 709"),
    ("const TOP 5\nnode 709 jump TPO", "2:15 UndefinedLabel 709 near TOP"),
    ("node 708\nloop: jump loop\nnode 709\n  jump lop", "4:8 UndefinedLabel 709"),
    ("node 708\nloop: jump loop\nnode 709\nlap: jump lop", "4:11 UndefinedLabel 709 near lap"),
    ("const LOOP1 5\nnode 709\nLOOP2: jump LOOP3", "3:13 UndefinedLabel 709 near LOOP2"),
    ("const LAST 5\nconst LASTS 6\nnode 709 &LAST drop", "3:10 UndefinedLabel 709"),
    # in a body the labels are those of the first section that names the node, or of the text; in lists of nodes; in
    # arguments
    ("body B\n  jump lop\nend\nnode 708 loop: use B\nnode 709 lop: use B", "2:8 UndefinedLabel 708 near loop"),
    ("body B\n  jump lop\nend\nnode 707 dupp\nnode 708 loop: use B", "2:8 UndefinedLabel 708 near loop",
     "4:10 near dup"),
    ("body B\n  jump lop\nend\nnode 707 dupp\nnode 709,708\nloop: use B", "2:8 UndefinedLabel 709 near loop",
     "4:10 near dup"),
    ("body B\n  jump lop\nend\nnode 708 lap: use B\nnode 708 loop: use B", "2:8 UndefinedLabel 708 near lap",
     "5:6 DuplicateNode"),
    ("body N\n  node 708 jump lop lop2: .\nend\nuse N\nnode 709 .", "2:17 UndefinedLabel 708 near lop2"),
    ("body GO NAME\n  jump NAME\nend\nnode 708\nloop: .\n  use GO lopp", "6:10 UndefinedLabel 708 near loop"),
    ("node 708,709\nagain: . jump agian", "2:15 UndefinedLabel 708 near again"),
    ("node 708,709 5 ovre", "1:16 near over"),
    # several: errors of other sections don't matter
    ("node 708 dupp\nnode 709 jmp 5", "1:10 near dup", "2:10 near jump"),
    ("node 708\nloop: jump lop\nnode 709\nback: jump bakc", "2:12 UndefinedLabel 708 near loop",
     "4:12 UndefinedLabel 709 near back"),
    ("node 708 dupp\nnode 709\nloop: jump lop", "1:10 near dup", "3:12 UndefinedLabel 709 near loop"),
    ("const LAST 5\nnode 708 dupp\nnode 709 jump LATS", "2:10 near dup", "3:15 UndefinedLabel 709 near LAST"),
    # a body without `use`, before a label of its name
    ("body GO\n  .\nend\nnode 708 GO: . GO", "4:16 use GO"), ("node 708 STAGE body STAGE", "1:10 use STAGE"),
    ("body B\n  .\nend\nbody TWICE\n  B B\nend\nnode 708 use TWICE", "5:3 use B"),
    ("node 708 STAGE\nnode 709 body STAGE", "1:10", "2:10 first"),
    # behind a label `use` too; the name of a definition behind a node is near to none
    ("body f\n  dup\nend\nnode 708 call use f", "4:19"), ("body f\n  dup\nend\nnode 708 use: f", "4:15 use f"),
    ("node 708 .\nconst A 5\nnode 709 A", "2:1 first", "3:10"),
    ("node 708 .\nbody OVR\n  .\nend\nnode 709 OVR", "2:1 first", "5:10"),
    ("body B\n const A 5\nend\nnode 709 use B", "2:2 first"),
    # a label without `call`, in front of it or behind it; that of another node is none, unless the word is in a shared
    # body
    ("node 709\nfoo: dup ;\nmain: 5 foo", "3:9 label foo"), ("node 709 main: foo . foo: ;", "1:16 label foo"),
    ("node 709 . data foo: , 1 foo", "1:26 label foo"), ("node 708,709 foo: . foo", "1:21 label foo"),
    ("node 709 end: . end", "1:17 label end"), ("node 709 main: dup ; data main", "1:27 label main"),
    ("body B\n  here\nend\nnode 708 use B\nnode 709 here: .", "2:3 label here"),
    ("node 708 foo: .\nnode 709 foo", "2:10"),
    # what can't be the name of a label: a word of the language, or one that begins with a digit or has another sign
    ("node 709 data dup dup:", "1:15"), ("node 709 @p . @p:", "1:10"), ("node 709 9loop . 9loop:", "1:10"),
    ("node 709 my-loop . my-loop:", "1:10"), ("node 709 foo: . Foo", "1:17"),
    # an expression that is no constant's value; an operator without an operand, or a name that is no constant
    ("const RL right|left\nnode 709 RL|up a!", "2:10 expression"), ("const A 5\nnode 709 jump A+1", "2:15 expression"),
    ("const A_ 1\nconst _B 2\nnode 709 . data , A_&_B", "3:19 expression"), ("node 709 . data , A_&_B", "1:19"),
    ("const A 5\nnode 709 [ dup jump A+1 ]", "2:21 expression"), ("node 2*3 .", "1:6 expression"),
    ("body B N\n  N\nend\nnode 709 use B 2*3", "4:16 expression"), ("const A 5/A\nnode 709 .", "1:9"),
    ("node 708 .\nconst SIZE 8\nnode 709 SIZE-1", "2:1 first", "3:10"),
    # a body without an `end` in front of the next `body`, or of the text's end
    ("body STAGE\n  dup\nnode 708 5 use STAGE", "3:16 UnknownBody open STAGE"), ("body", "1:1 OpenDefinition"),
    ("body STAGE\n  use GONE\nend\nnode 708 use STAGE", "2:7 UnknownBody"), (f"body B\nnode 708 {'x' * 65}", "2:10"),
    ("const A 5\n\n body STAGE PORT\n  PORT\nnode 708 use STAG", "5:14 UnknownBody open STAGE"),
    ("body ONE\n  .\nnode 708 .\nbody TWO\n  use ONE\nend\nnode 709 use TWO", "5:7 UnknownBody open ONE"),
    ("body s\n dup\nbody t\n drop\nend\nnode 709 use t", "6:14 UnknownBody open s"),
    (f"{SEND}body s\n dup\nbody t\n drop\nend\nnode 709 use t", "9:14 UnknownBody open s"),
    ("body SEND\n .\nend\nbody SENT\n .\nnode 709 use SENT", "6:14 UnknownBody open SENT"),
    ("body s\n dup\nbody TAKE\n drop\nend\nnode 709 use TAEK", "6:14 UnknownBody open s"),
    ("body B\n  node 708 use GONE\nend\nuse B", "2:16 UnknownBody"), ("node 709 use body 5 dup", "1:14 UnknownBody"),
    ("body A\n  use GONE\nend\nbody B\n  .\nnode 709 use B", "2:7 UnknownBody"), ("body B node", "1:8 ReservedName"),
    ("body B\nnode 708 use end\nnode 709 .", "2:10 OpenDefinition"), ("node 709 use", "1:10 OpenDefinition"),
    ("node 708 body X\nnode 709 use GONE", "1:10 first", "2:14 UnknownBody open X"),
    ("body STAGE\n  use GONE\nnode 708 .", "2:7 UnknownBody open STAGE"),
    (f"{SEND}body STAGE\n  use SEDN\nnode 708 .", "5:7 UnknownBody near SEND"),
    ("body B\nnode 708 .", "1:1 OpenDefinition open B"), (f"{SEND}body B\n  dup", "4:1 OpenDefinition open B"),
    # with sections that have errors too: each by itself, in the order of the places
    ("node 708 foo: . foo\nnode 709 2*3\nnode 708 DUP", "1:17 label foo", "2:10 expression", "3:10 near dup"),
    ("node 708 foo: . foo\nnode 709 .\nnode 708 .", "1:17 label foo"),
]  # fmt: skip
WORD = "[ . ]\n"
# A line of these is one word, unless its address is 7 modulo 8: then the jump is in the block of eight words behind it,
# so that it doesn't fit slot 2, and gets a word of its own. The first seven lines are the words 0 to 6, and line 8 is
# the words 7 and 8. From there on seven lines are eight words. So 50 lines are 9 + 6*8 = 57 words, lines 51 to 56 are
# the words 57 to 62, line 57 is the words 63 and 64, and lines 58 to 60 are one word each: 68 in all.
JUMPS = "".join(f"n{line}: dup dup jump n{line}\n" for line in range(1, 61))
# What a node has, and where its 65th word is, with the words of code and of data that it needs.
SIZES = [
    (WORD * 65, "66:1", "65 0"), (WORD * 70, "66:1", "70 0"), (WORD * 1000, "66:1", "1000 0"),
    (f"{WORD * 64}data\n, 5\n", "67:1", "64 1"), (f"{WORD * 37}data\n" + ", 5\n" * 34, "67:1", "37 34"),
    (f"{WORD * 70}data\nlast: , 5\n, last\n, 6\n", "66:1", "70 3"), (".\ndata\n" + ", 5\n" * 64, "67:1", "1 64"),
    ("data\n" + ", 5\n" * 66, "67:1", "0 66"),
    # four instructions a word, or three if the last one doesn't fit slot 3
    ("dup dup dup dup\n" * 66, "66:1", "66 0"), ("drop drop drop\n" * 67, "66:1", "67 0"),
    ("drop drop drop .\n" * 65, "66:1", "65 0"),
    # four literals are a word of four `@p` and four followers, so the 52nd one has the 65th word, and 60 have 75
    ("5\n" * 60, "53:1", "75 0"),
    # a label, `align` and brackets begin a new word: these are a word and its follower, each time
    ("".join(f"a{at}: 5\n" for at in range(34)), "34:6", "68 0"), ("5 align\n" * 33, "34:1", "66 0"),
    ("[ @p a! @p . ] , 5 , 6\n" * 22, "23:16", "66 0"), ("dup jump 5\n" * 65, "66:1", "65 0"), (JUMPS, "58:19", "68 0"),
    # a label that comes later is out of reach of slot 2, so each line is two words
    ("dup dup jump last\n" * 33 + "last: .\n", "34:1", "67 0"),
    # what is wrong behind the 65th word
    (f"{WORD * 65}jump gone\n", "66:1", "66 0"), (f"{WORD * 65}[ . . jump far ] {WORD * 20}far: .\n", "66:1", "87 0"),
]  # fmt: skip
# The same of bodies, whose words are those of the node, and of other texts; with an error in another section.
LONG_NODES = [
    (f"body B\n{WORD * 40}end\nnode 708 use B\nnode 709 use B use B\n", "26:1 TooLong 709 words 80 0"),
    (f"body B\n{WORD * 63}end\nnode 708 use B . data , 5\nnode 709 use B .\n", "66:23 TooLong 708 words 64 1"),
    (f"node 708,709\n{WORD * 66}", "66:1 TooLong 708 words 66 0"),
    (f"const LAST 5\nnode 709\n{WORD * 63}LAST LAST\n", "66:1 TooLong 709 words 66 0"),
    (f"node 708 .\nnode 709\n{WORD * 66}node 710 .\n", "67:1 TooLong 709 words 66 0"),
    (f"body B\n{WORD * 40}end\nnode 708 use B use B\nnode 709 dupp\n", "26:1 TooLong 708 words 80 0", "44:10 near dup"),
    (f"body B\n{WORD * 40}end\nnode 709 dupp\nnode 707,708 . use B use B\n", "25:1 TooLong 707 words 81 0",
     "43:10 near dup"),
]  # fmt: skip


def worked():
    """All rows, with the messages in full."""
    rows = [*ERRORS, *MANY, *LONG_NODES, *((f"{text}\n", *told) for text, *told in HINTED)]
    rows += [(f"{SEND}node 708 {text}\n", told) for text, told in SENDS]
    rows += [(f"node 709\n{text}\n", f"{place} UndefinedLabel 709 near {name}") for text, place, name in LABELS]
    rows += [(f"node 709\n{text}", f"{place} TooLong 709 words {words}") for text, place, words in SIZES]
    rows += [(f"node 709 {word}\n", f"1:10 {hint}") for hint, words in WORDS.items() for word in words]
    rows += [(f"{word}\nnode 710 .\n", f"1:1 NoNode {hint}") for hint, words in FIRST.items() for word in words]
    rows += [(f"const {name} 5\nnode 709 {word} a!\n", f"2:10 {hint}") for name, word, hint in CONSTANTS]
    return [(text, [*map(in_full, told)]) for text, *told in rows]


def in_full(message):
    """A message with its hint in full."""
    place, *more = message.split()
    name = more.pop(0) if more and more[0][0].isupper() else "BadToken"
    node = more.pop(0) if more and more[0].isdecimal() else None
    if more[:1] == ["words"]:
        words = int(more[1]) + int(more[2])
        more += [words, words - 64]
    return place, name, node, HINTS[more[0]].format(*more[1:]) if more else None
