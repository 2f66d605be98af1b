"""What `drm_server explain --line` prints of the last line of a script, for each kind of fact: a table.

The facts are worked out from docs/RULES.md and docs/COMMANDS.md. No page has the wording of the sentences, so that is the sources'.

A row has the kinds of its facts, the script, the rule that denies its last line, and the facts. The lines of a script are divided by
semicolons. The kinds are those of the enums of drm_refusals, and the subjects of drm_explanations. Steps are counted from 1 in each.
"""

# The rules' conditions, by docs/RULES.md.
PASSES_IF = {
    1: "a call had the number",
    2: "the fields were those of the call",
    3: "the client were open",
    11: "the caller had opened the root node",
    12: "the caller had opened the root node or were a master, or if a current client of its master had authenticated it (auth_magic)",
    13: "the caller were current: a master whose owner is the device's master (set_master, while the device has none)",
    14: "the caller had opened the card or the root node",
    21: "the caller held the handle",
    22: "the caller held the handle",
    23: "an object had the name (gem_flink)",
    24: "the token were open (prime_export), and, to be closed, the caller's",
    25: "a client of the caller's master had the magic (get_magic), and it were not spent",
    26: "the caller had opened the root node, or had been a master before",
    27: "the device had no master: after drop_master, or after its master's client is closed",
    28: "the caller were current: a master whose owner is the device's master (set_master, while the device has none)",
    29: "the caller's master were no lessee",
    30: "each id were that of such a mode object, and the caller saw it",
    31: "each id were that of a CRTC, a plane or a connector",
    32: "no id were listed twice",
    33: "a CRTC, a connector and, with universal planes on, a plane were among the ids",
    34: "no other lease had it: after revoke_lease, or after the lessee's client is closed",
    35: "the caller's master had fewer lessors above it",
    36: "the owner had a lessee of that id",
    37: "the caller were a client of the lessee's lessor",
    38: "the framebuffer existed, and, to be removed, were the caller's",
    39: "the numbers were in their ranges",
    40: "the CRTC were a possible one, and neither or both of framebuffer and connector were 0",
    41: "the capability existed, and could have the value",
    42: "the lease token were open",
    43: "something of its kind were freed, or the limit were greater",
}

# Kinds of facts that no script can lead to, each with the reason.
NOT_IN_SCRIPTS = {
    "ClientFact::NeverOpened": "a label names a client that a step opened, or none",
}

# Sentences that no script can lead to, each with the reason.
NOT_WRITTEN = {
    "{} is not open: no step opened it": "a label names a client that a step opened, or none",
    "name {} was allocated by {} at step {}": "a name is told with its buffer",
    "no buffer has name {}: {} allocated it at step {}, and it was removed at step {} ({} by {})": "the same",
    "memory were available": "a script cannot refuse memory",
    "a ticket were left": "a script has no threads",
}

CARD = "open a card; "
TWO = CARD + "open b card; "
# a pixel of 32 bits, 8 pixels a line: a pitch of 32 bytes, rounded up to 64, and 8 of those, rounded up to 4,096 bytes
DUMB = CARD + "a create_dumb 8 8 32; "
SHOWN = DUMB + "a addfb 8 8 32 32 1; "
LESSEE = CARD + "a create_lease 2 4 8; open l lease 1; "
ITS_LEASE = "lessee 1, master 2, has CRTC 2, plane 4 and connector 8: leased by a at step 2 (lessee 1, token 1), redeemed by l at step 3"
FOUNDED = "a is a master: it founded master 1 as it opened at step 1, when the device had none"
JOINED = "b is no master: it joined master 1 as it opened at step 2"
BY_A = "the device's master is 1: a founded it as it opened at step 1"
NO_HANDLE = "a holds no handle"


def of_handle(call, rule):
    """A row of a call that names a handle that no step assigned."""
    told = ["a does not hold handle 7: no step assigned it", "a holds 1 own handle: 1"]
    return ("HandleFact::NeverGiven HandleFact::Holds", f"{CARD}a buf_create 1; a {call}", rule, told)


def full_of_handles(call, before=""):
    """A row of a call that would assign a handle to a client with as many as the limit allows."""
    script = f"limits 4 2 8 8 8 4 4 100; {CARD}a buf_create 1; a buf_create 1; {before}a {call}"
    return ("LimitFact::Handles", script, 43, ["a holds 2 handles, and the limit is 2"])


def of_buffer(script, size, handle, height):
    """A row of a framebuffer that is larger than its buffer."""
    told = f"{height} lines of 64 bytes are {64 * height}, and the buffer of handle {handle} has {size}"
    return ("SizeFact::ShortBuffer", f"{script}a addfb 8 {height} 64 32 {handle}", 39, [told])


def not_of_kind(call, *facts):
    """A row of a call that names mode objects of other kinds."""
    told = [f"mode object {number} is {kind}, and not {wanted}" for number, kind, wanted in facts]
    return ("ModeObjectFact::OfKind", f"{CARD}a {call}", 30, told)


def not_controlled(call, number, kind):
    """A row of a lease client and a mode object that its lease does not have."""
    told = f"l does not see mode object {number}, {kind}: its master's lease does not include it"
    return ("ModeObjectFact::NotControlled Subject::Lease", f"{LESSEE}l {call}", 30, [told, ITS_LEASE])


CALLS = [
    ("RequestFact::NoCall", CARD + "a raw 3", 1, ["no call has number 3"]),
    ("RequestFact::OtherFields", CARD + "a raw 9", 2, ["number 9 is gem_close, which has other fields"]),
    ("RequestFact::OtherFields", CARD + "a raw 199", 2, ["number 199 is list_lessees, which has other fields"]),
    ("RequestFact::NoCaller", CARD + "b version", 3, ["no step opened a client with the label of the line"]),
    ("RequestFact::NoCaller", CARD + "close b", 3, ["no step opened a client with the label of the line"]),
    ("ClientFact::Closed", TWO + "close b; b version", 3, ["b is not open: it closed at step 3"]),
    ("ClientFact::Closed", TWO + "close b; a version; close b", 3, ["b is not open: it closed at step 3"]),
    # a label names the last client that it opened
    (
        "ClientFact::Closed",
        CARD + "close a; open a card; close a; a version",
        3,
        ["a is not open: it closed at step 4"],
    ),
    ("RequestFact::NoCapability", CARD + "a get_cap 2", 41, ["capability 2 cannot be read: only 1 and 5 can"]),
    (
        "RequestFact::NoValue",
        CARD + "a set_client_cap 3 1",
        41,
        ["capability 3 cannot be set to 1: only capability 2 can be set, to 0 or 1"],
    ),
    (
        "RequestFact::NoValue",
        CARD + "a set_client_cap 2 7",
        41,
        ["capability 2 cannot be set to 7: only capability 2 can be set, to 0 or 1"],
    ),
]

STATES = [
    ("Subject::Client", CARD + "a audit 1 0", 11, ["a is client 1: a primary client, opened at step 1"]),
    (
        "Subject::Client",
        CARD + "open r render; r create_dumb 1 1 8",
        14,
        ["r is client 2: a render client, opened at step 2"],
    ),
    (
        "Subject::Client Subject::Master",
        LESSEE + "l set_master",
        26,
        [
            "l is client 3: a lease client, opened at step 3",
            "l is a master: it opened lessee 1, master 2, by its token at step 3",
        ],
    ),
    (
        "Subject::Client Subject::Master",
        TWO + "b drop_master",
        26,
        ["b is client 2: a primary client, opened at step 2", JOINED],
    ),
    (
        "Subject::Authentication",
        TWO + "b gem_flink 1",
        12,
        ["b is not authenticated: it didn't open by root, is no master, and no client named its magic (auth_magic)"],
    ),
    (
        "Subject::Current Subject::Master Subject::Device",
        TWO + "b setcrtc 1 0 0",
        13,
        ["b is not current: it is no master", JOINED, BY_A],
    ),
    (
        "Subject::Device",
        TWO + "close a; b setcrtc 1 0 0",
        13,
        ["b is not current: it is no master", JOINED, "the device has no master: its client a closed at step 3"],
    ),
    (
        "Subject::Current Subject::Device",
        CARD + "a drop_master; open b card; a setcrtc 1 0 0",
        13,
        [
            "a is not current: its master is 1, and the device's is 3",
            FOUNDED,
            "the device's master is 3: b founded it as it opened at step 3",
        ],
    ),
    (
        "Subject::Current Subject::Device",
        CARD + "open r root; a drop_master; r set_master; a setcrtc 1 0 0",
        13,
        [
            "a is not current: its master is 1, and the device's is 4",
            FOUNDED,
            "the device's master is 4: r set it at step 4 (set_master)",
        ],
    ),
    (
        "Subject::Master Subject::Device",
        CARD + "open r root; a drop_master; r set_master; r drop_master; r setcrtc 1 0 0",
        13,
        [
            "r is not current: its master is 4, and the device has none",
            "r is a master: it founded master 4 at step 4 (set_master)",
            "the device has no master: r dropped it at step 5 (drop_master)",
        ],
    ),
    (
        "Subject::Current Subject::Master Subject::Device",
        LESSEE + "a drop_master; open b card; l setcrtc 1 0 0",
        13,
        [
            "l is not current: the owner of its master 2 is 1, and the device's is 5",
            "l is a master: it opened lessee 1, master 2, by its token at step 3",
            "the device's master is 5: b founded it as it opened at step 5",
        ],
    ),
    (
        "Subject::Current Subject::Device",
        CARD + "open r root; r set_master",
        27,
        ["r is not current: it is no master", BY_A],
    ),
    (
        "Subject::Current Subject::Master Subject::Device",
        CARD + "open r root; r drop_master",
        28,
        ["r is not current: it is no master", "r is no master: it joined master 1 as it opened at step 2", BY_A],
    ),
    (
        "Subject::Master Subject::Lease",
        CARD + "a create_lease 2 4 8; open l rootlease 1; a drop_master; l set_master",
        29,
        ["l is a master: it opened lessee 1, master 2, by its token at step 3", ITS_LEASE],
    ),
]

HANDLES = [
    *(
        of_handle(call, 21)
        for call in ("gem_flink 7", "prime_export 7", "stamp_write 7 1", "stamp_read 7", "addfb 8 8 32 32 7")
    ),
    *(of_handle(call, 22) for call in ("gem_close 7", "destroy_dumb 7")),
    ("HandleFact::Holds", CARD + "a gem_close 1", 22, ["a does not hold handle 1: no step assigned it", NO_HANDLE]),
    (
        "HandleFact::GaveBack",
        DUMB + "a destroy_dumb 1; a stamp_read 1",
        21,
        ["a does not hold handle 1: it closed it at step 3 (destroy_dumb)", NO_HANDLE],
    ),
    # another client's handle of the same number is closed later
    (
        "HandleFact::GaveBack",
        TWO + "a buf_create 1; b buf_create 1; a gem_close 1; b gem_close 1; a gem_close 1",
        22,
        ["a does not hold handle 1: it closed it at step 5 (gem_close)", NO_HANDLE],
    ),
    (
        "HandleFact::Holds",
        CARD + 17 * "a buf_create 1; " + "a gem_close 18",
        22,
        [
            "a does not hold handle 18: no step assigned it",
            "a holds 17 own handles: 1, 2, 3, 4, 5, 6, 7, 8, 9, 10, 11, 12, 13, 14, 15, 16, ..",
        ],
    ),
    (
        "HandleFact::Holds",
        CARD + "a buf_create 1; a prime_export 1; open b card; b buf_create 1; b prime_import 1; b gem_close 9",
        22,
        ["b does not hold handle 9: no step assigned it", "b holds 2 own handles: 1, 2"],
    ),
]

PUBLISHED = [
    ("PublishedFact::Never", CARD + "a gem_open 7", 23, ["no buffer has name 7: no step allocated it"]),
    ("PublishedFact::Never", CARD + "a prime_import 7", 24, ["token 7 is not open: no step allocated it"]),
    ("PublishedFact::Never", CARD + "a token_close 7", 24, ["token 7 is not open: no step allocated it"]),
    *(
        ("PublishedFact::Never", f"{CARD}a {call}", 38, ["framebuffer 9 does not exist: no step added it"])
        for call in ("setcrtc 1 9 7", "setplane 3 1 9", "getfb 9", "rmfb 9")
    ),
    # the last handle is another client's, which closes it or is closed
    (
        "PublishedFact::Named",
        CARD
        + "open b root; a buf_create 1; a gem_flink 1; b gem_open 1; a gem_close 1; b destroy_dumb 1; a gem_open 1",
        23,
        [
            "no buffer has name 1: a named buffer 3 at step 4, and its last handle was closed at step 7 (destroy_dumb by b)"
        ],
    ),
    (
        "PublishedFact::Named",
        CARD + "open b root; a buf_create 1; a gem_flink 1; b gem_open 1; a gem_close 1; close b; a gem_open 1",
        23,
        ["no buffer has name 1: a named buffer 3 at step 4, and its last handle was closed at step 7 (close by b)"],
    ),
    # a name that is free again is given to another buffer
    (
        "PublishedFact::Named",
        CARD
        + "a buf_create 1; a gem_flink 1; a gem_close 1; a buf_create 1; a gem_flink 1; a gem_close 1; a gem_open 1",
        23,
        ["no buffer has name 1: a named buffer 5 at step 6, and its last handle was closed at step 7 (gem_close by a)"],
    ),
    # a token keeps the buffer, and not its name
    (
        "PublishedFact::Named",
        CARD + "a buf_create 1; a prime_export 1; a gem_flink 1; a gem_close 1; a gem_open 1",
        23,
        ["no buffer has name 1: a named buffer 2 at step 4, and its last handle was closed at step 5 (gem_close by a)"],
    ),
    (
        "PublishedFact::Published",
        TWO + "a buf_create 1; a prime_export 1; b token_close 1",
        24,
        ["token 1 belongs to a, which exported it at step 4"],
    ),
    (
        "PublishedFact::Published",
        TWO + "a create_dumb 8 8 32; a addfb 8 8 32 32 1; b rmfb 9",
        38,
        ["framebuffer 9 belongs to a, which added it at step 4"],
    ),
    (
        "PublishedFact::Withdrawn",
        TWO + "a buf_create 1; a prime_export 1; a token_close 1; b prime_import 1",
        24,
        ["token 1 is not open: a exported it at step 4, and it was closed at step 5 (token_close by a)"],
    ),
    (
        "PublishedFact::Withdrawn",
        TWO + "a buf_create 1; a prime_export 1; close a; b prime_import 1",
        24,
        ["token 1 is not open: a exported it at step 4, and it was closed at step 5 (close by a)"],
    ),
    (
        "PublishedFact::Withdrawn",
        SHOWN + "a rmfb 9; a getfb 9",
        38,
        ["framebuffer 9 does not exist: a added it at step 3, and it was removed at step 4 (rmfb by a)"],
    ),
    (
        "PublishedFact::Withdrawn",
        SHOWN + "open b card; close a; b getfb 9",
        38,
        ["framebuffer 9 does not exist: a added it at step 3, and it was removed at step 5 (close by a)"],
    ),
]

MAGICS = [
    ("MagicFact::Unknown", CARD + "a auth_magic 5", 25, ["no client of master 1 received magic 5 (get_magic)"]),
    # the magics of another master
    (
        "MagicFact::Unknown",
        CARD + "a get_magic; a drop_master; open b card; b auth_magic 1",
        25,
        ["no client of master 4 received magic 1 (get_magic)"],
    ),
    (
        "MagicFact::Spent",
        TWO + "b get_magic; a auth_magic 1; a auth_magic 1",
        25,
        ["magic 1 belongs to b, and a spent it at step 4 (auth_magic)"],
    ),
    (
        "MagicFact::OfClosed",
        TWO + "b get_magic; close b; a auth_magic 1",
        25,
        ["magic 1 ended when b closed at step 4"],
    ),
    (
        "MagicFact::OfClosed",
        TWO + "b get_magic; a auth_magic 1; close b; a auth_magic 1",
        25,
        ["magic 1 ended when b closed at step 5"],
    ),
    # a client that gets a new master loses its magic of the previous one
    (
        "MagicFact::Lost",
        CARD + "open r root; r get_magic; a drop_master; r set_master; r drop_master; a set_master; a auth_magic 1",
        25,
        ["magic 1 no longer belongs to r, or is spent"],
    ),
]

LEASES = [
    (
        "ModeObjectFact::Encoder PublishedFact::Published",
        SHOWN + "a create_lease 1 3 7 9 5",
        31,
        ["framebuffer 9 belongs to a, which added it at step 3", "mode object 5 is an encoder"],
    ),
    ("RequestFact::Repeated", CARD + "a create_lease 7 1 7 1", 32, ["id 7 occurs twice", "id 1 occurs twice"]),
    (
        "RequestFact::LacksCrtc RequestFact::LacksConnector LeaseFact::LacksPlane",
        CARD + "a create_lease",
        33,
        [
            "no CRTC is among the ids",
            "no connector is among the ids",
            "no plane is among the ids, and a has universal planes on",
        ],
    ),
    ("RequestFact::LacksCrtc", CARD + "a create_lease 3 7", 33, ["no CRTC is among the ids"]),
    ("RequestFact::LacksConnector", "open2 a card; a create_lease 1", 33, ["no connector is among the ids"]),
    (
        "LeaseFact::LacksPlane",
        CARD + "a create_lease 1 7",
        33,
        ["no plane is among the ids, and a has universal planes on"],
    ),
    (
        "LeaseFact::LeasedOut Subject::Lease",
        CARD + "a create_lease 2 4 8; a create_lease 1 3 7; a create_lease 7 2 3",
        34,
        [
            "mode object 2 is leased out to lessee 1",
            "lessee 1, master 2, has CRTC 2, plane 4 and connector 8: leased by a at step 2 (lessee 1, token 1), not redeemed",
            "mode object 7 is leased out to lessee 2",
            "mode object 3 is leased out to lessee 2",
            "lessee 2, master 3, has CRTC 1, plane 3 and connector 7: leased by a at step 3 (lessee 2, token 2), not redeemed",
        ],
    ),
    # with universal planes off, a CRTC adds its primary plane
    (
        "LeaseFact::LeasedOut",
        "open2 a card; a create_lease 1 7; a create_lease 1 8",
        34,
        [
            "mode object 1 is leased out to lessee 1",
            "mode object 3 is leased out to lessee 1",
            "lessee 1, master 2, has CRTC 1, plane 3 and connector 7: leased by a at step 2 (lessee 1, token 1), not redeemed",
        ],
    ),
    (
        "LeaseFact::NoLessee",
        CARD + "a revoke_lease 5",
        36,
        ["there is no lessee 5: no create_lease under the same owner returned that id"],
    ),
    (
        "Subject::Lease",
        LESSEE + "close l; a revoke_lease 1",
        36,
        [
            "lessee 1, master 2, has nothing: leased by a at step 2 (lessee 1, token 1), redeemed by l at step 3, "
            "ended at step 4 as l closed"
        ],
    ),
    (
        "LeaseFact::OtherLessor Subject::Lease",
        LESSEE + "l create_lease 2 4 8; a revoke_lease 2",
        37,
        [
            "the lessor of lessee 2 is master 2, and the master of a is 1",
            "lessee 2, master 4, has CRTC 2, plane 4 and connector 8: leased by a at step 2 (lessee 1, token 1), redeemed by l at step 3, "
            "leased by l at step 4 (lessee 2, token 2), not redeemed",
        ],
    ),
    (
        "LeaseFact::TokenUnknown",
        CARD + "open l lease 4",
        42,
        ["lease token 4 is not open: no create_lease returned it"],
    ),
    (
        "LeaseFact::TokenUsed Subject::Lease",
        LESSEE + "open m rootlease 1",
        42,
        ["lease token 1 is not open: it is spent, or its lease has ended", ITS_LEASE],
    ),
    (
        "LeaseFact::TokenUsed Subject::Lease",
        CARD + "a create_lease 2 4 8; a revoke_lease 1; open l lease 1",
        42,
        [
            "lease token 1 is not open: it is spent, or its lease has ended",
            "lessee 1, master 2, has nothing: leased by a at step 2 (lessee 1, token 1), not redeemed, "
            "ended at step 3 (revoke_lease by a)",
        ],
    ),
]

MODE_OBJECTS = [
    ("ModeObjectFact::Nothing", CARD + "a getcrtc 9", 30, ["there is no mode object 9: the ids are 1 to 8"]),
    (
        "ModeObjectFact::Nothing PublishedFact::Never",
        CARD + "a create_lease 0 9 7",
        30,
        ["there is no mode object 0: the ids are 1 to 8", "framebuffer 9 does not exist: no step added it"],
    ),
    not_of_kind("getcrtc 3", (3, "a plane", "a CRTC")),
    not_of_kind("getplane 5", (5, "an encoder", "a plane")),
    not_of_kind("getencoder 7", (7, "a connector", "an encoder")),
    not_of_kind("getconnector 1", (1, "a CRTC", "a connector")),
    not_of_kind("setcrtc 3 0 4", (3, "a plane", "a CRTC"), (4, "a plane", "a connector")),
    not_of_kind("setplane 1 3 9", (1, "a CRTC", "a plane"), (3, "a plane", "a CRTC")),
    # the CRTC is not looked at for no framebuffer
    not_of_kind("setplane 1 3 0", (1, "a CRTC", "a plane")),
    not_controlled("getcrtc 1", 1, "a CRTC"),
    not_controlled("getplane 3", 3, "a plane"),
    not_controlled("getconnector 7", 7, "a connector"),
    not_controlled("create_lease 2 4 7", 7, "a connector"),
    (
        "ModeObjectFact::Hidden Subject::UniversalPlanes",
        "open2 a card; a getplane 3",
        30,
        [
            "a does not see plane 3: it is the primary or the cursor plane of CRTC 1",
            "a has universal planes off: it opened without them at step 1",
        ],
    ),
    (
        "ModeObjectFact::Hidden Subject::UniversalPlanes",
        CARD + "a set_client_cap 2 0; a setplane 3 1 0",
        30,
        [
            "a does not see plane 3: it is the primary or the cursor plane of CRTC 1",
            "a has universal planes off: it turned them off at step 2 (set_client_cap)",
        ],
    ),
    (
        "RequestFact::HalfRoute",
        CARD + "a setcrtc 1 0 7",
        40,
        ["the framebuffer is 0 and the connector 7: exactly one of them is 0"],
    ),
    (
        "RequestFact::HalfRoute",
        SHOWN + "a setcrtc 1 9 0",
        40,
        ["the framebuffer is 9 and the connector 0: exactly one of them is 0"],
    ),
    (
        "ModeObjectFact::EncoderOf",
        SHOWN + "a setcrtc 1 9 8",
        40,
        ["CRTC 1 is not a possible CRTC of encoder 6, which is that of connector 8"],
    ),
    ("RequestFact::PlaneRoute", SHOWN + "a setplane 4 1 9", 40, ["CRTC 1 is not a possible CRTC of plane 4"]),
]

SIZES = [
    *(
        (
            "SizeFact::OutOfRange Quantity::Size",
            f"{CARD}a buf_create {size}",
            39,
            [f"the size is {size} bytes, and not 1 to 68719476736"],
        )
        for size in (0, 68_719_476_737)
    ),
    (
        "SizeFact::OutOfRange Quantity::Width Quantity::Height Quantity::Bits",
        CARD + "a create_dumb 0 65536 65",
        39,
        [
            "the width is 0, and not 1 to 65535",
            "the height is 65536, and not 1 to 65535",
            "the number of bits per pixel is 65, and not 1 to 64",
        ],
    ),
    (
        "SizeFact::OutOfRange Quantity::Height",
        CARD + "a create_dumb 1 0 64",
        39,
        ["the height is 0, and not 1 to 65535"],
    ),
    # 8 pixels of 4 bytes, and 8 of 9 bits, which take 2 bytes each
    (
        "SizeFact::ShortPitch",
        DUMB + "a addfb 8 8 31 32 1",
        39,
        ["the pitch is 31 bytes, and the pixels of a line take 32"],
    ),
    (
        "SizeFact::ShortPitch",
        DUMB + "a addfb 8 8 15 9 1",
        39,
        ["the pitch is 15 bytes, and the pixels of a line take 16"],
    ),
    (
        "SizeFact::OutOfRange SizeFact::ShortPitch SizeFact::ShortBuffer",
        DUMB + "a addfb 65536 3000 2 8 1",
        39,
        [
            "the width is 65536, and not 1 to 65535",
            "the pitch is 2 bytes, and the pixels of a line take 65536",
            "3000 lines of 2 bytes are 6000, and the buffer of handle 1 has 4096",
        ],
    ),
    # 5,000 bytes are rounded up to 8,192, and a picture of 8 lines takes 4,096
    of_buffer(CARD + "a buf_create 5000; ", 8192, 1, 129),
    of_buffer(DUMB, 4096, 1, 65),
    of_buffer(CARD + "a buf_create 5000; a gem_flink 1; a gem_open 1; ", 8192, 2, 129),
    of_buffer(
        "open b card; open a card; b create_dumb 8 8 32; b prime_export 1; a buf_create 9000; a prime_import 1; ",
        4096,
        2,
        65,
    ),
    of_buffer(SHOWN + "a getfb 9; ", 4096, 2, 65),
]

LIMITS = [
    (
        "LimitFact::Clients",
        "limits 2 8 8 8 8 4 4 100; " + TWO + "close a; open c card; open d card",
        43,
        ["2 clients are open, and the limit is 2"],
    ),
    (
        "LimitFact::Clients",
        "limits 2 8 8 8 8 4 4 100; " + LESSEE + "a create_lease 1 3 7; open m lease 2",
        43,
        ["2 clients are open, and the limit is 2"],
    ),
    full_of_handles("buf_create 1"),
    full_of_handles("create_dumb 8 8 32"),
    full_of_handles("gem_open 1", "a gem_flink 1; "),
    full_of_handles("prime_import 1", "open b card; b buf_create 1; b prime_export 1; "),
    full_of_handles("getfb 9", "a addfb 8 8 32 32 1; "),
    (
        "LimitFact::Objects",
        "limits 4 8 8 8 2 4 4 100; "
        + CARD
        + "a buf_create 1; a prime_export 1; a gem_close 1; a buf_create 1; a create_dumb 8 8 32",
        43,
        ["2 buffers exist, which is the limit; those that only a token or a framebuffer keeps count too"],
    ),
    (
        "LimitFact::Names",
        "limits 4 8 1 3 4 5 6 100; " + CARD + "a buf_create 1; a buf_create 1; a gem_flink 1; a gem_flink 2",
        43,
        ["all names are in use, 1 to 1"],
    ),
    (
        "LimitFact::Tokens",
        "limits 4 8 3 2 4 5 6 100; " + CARD + "a buf_create 1; a prime_export 1; a prime_export 1; a prime_export 1",
        43,
        ["all PRIME tokens are open, 1 to 2"],
    ),
    (
        "LimitFact::Framebuffers",
        "limits 4 8 3 2 4 1 6 100; " + SHOWN + "a addfb 8 8 32 32 1",
        43,
        ["1 framebuffers exist, which is the limit"],
    ),
    (
        "LimitFact::Leases",
        "limits 4 8 3 2 4 5 1 100; " + CARD + "a create_lease 2 4 8; a create_lease 1 3 7",
        43,
        ["all lessee ids of the owner are in use, 1 to 1, or all lease tokens are open, 1 to 2"],
    ),
    (
        "LimitFact::Leases",
        "limits 4 8 3 1 4 5 6 100; " + CARD + "a create_lease 2 4 8; a create_lease 1 3 7",
        43,
        ["all lessee ids of the owner are in use, 1 to 6, or all lease tokens are open, 1 to 1"],
    ),
]

# How a full journal is reported, which is a fault: J places, and one for the closing of each open client.
JOURNALS = [
    (
        "LimitFact::Journal",
        "limits 4 8 8 8 8 4 4 5; open a card; open b card; close a; a version; a version",
        "the journal has 4 steps of 5, and each of 1 open clients reserves a step for its closing",
    ),
    (
        "LimitFact::Journal",
        "limits 4 8 8 8 8 4 4 5; open a card; open b card; a version; a version",
        "the journal has 3 steps of 5, and each of 2 open clients reserves a step for its closing",
    ),
]

FACTS = CALLS + STATES + HANDLES + PUBLISHED + MAGICS + LEASES + MODE_OBJECTS + SIZES + LIMITS
