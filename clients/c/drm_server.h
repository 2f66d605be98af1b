/* The numbers of drm_server's protocol, for C99 and C++. Written by tools/constants from the
 * sources of the server. docs/FRAMES.md has the calls, the answers and the frames, docs/RULES.md
 * the rules. */
#ifndef ZIRKOSHE_DRM_SERVER_H
#define ZIRKOSHE_DRM_SERVER_H

#include <stddef.h>
#include <stdint.h>

/* The rules that deny. */
enum zirkoshe_rule_number {
    /* No call has the number. */
    ZIRKOSHE_RULE_UNKNOWN = 1,
    /* The fields do not match the layout of the call. */
    ZIRKOSHE_RULE_LAYOUT = 2,
    /* The client is not open. */
    ZIRKOSHE_RULE_NO_CLIENT = 3,
    /* The call requires root, and the caller is not root. */
    ZIRKOSHE_RULE_ROOT_ONLY = 11,
    /* The call requires an authenticated or a render client. */
    ZIRKOSHE_RULE_AUTH = 12,
    /* The call requires a caller that is current. */
    ZIRKOSHE_RULE_MASTER = 13,
    /* Render clients may not make the call. */
    ZIRKOSHE_RULE_RENDER_ALLOW = 14,
    /* The caller does not hold the handle. */
    ZIRKOSHE_RULE_NO_HANDLE = 21,
    /* The caller does not hold the handle to close. */
    ZIRKOSHE_RULE_NO_HANDLE_TO_CLOSE = 22,
    /* No object has the name. */
    ZIRKOSHE_RULE_NO_NAME = 23,
    /* No open PRIME token has the number, or another client exported the token to close. */
    ZIRKOSHE_RULE_NO_TOKEN = 24,
    /* The caller's master has no such magic, or the magic was used. */
    ZIRKOSHE_RULE_NO_MAGIC = 25,
    /* The caller was never a master and is not root. */
    ZIRKOSHE_RULE_MASTER_PERM = 26,
    /* The device has a master. */
    ZIRKOSHE_RULE_MASTER_BUSY = 27,
    /* The caller is not current. */
    ZIRKOSHE_RULE_NOT_CURRENT = 28,
    /* The caller's master is a lessee. */
    ZIRKOSHE_RULE_IS_LESSEE = 29,
    /* The mode object does not exist, or the caller does not see it. */
    ZIRKOSHE_RULE_NO_MODE_OBJECT = 30,
    /* Encoders and framebuffers cannot be leased. */
    ZIRKOSHE_RULE_NOT_LEASABLE = 31,
    /* An id occurs twice in the lease. */
    ZIRKOSHE_RULE_REPEATED = 32,
    /* The lease has no CRTC, no connector or no plane. */
    ZIRKOSHE_RULE_LEASE_SHAPE = 33,
    /* A direct lessee already has the object. */
    ZIRKOSHE_RULE_LEASED_OUT = 34,
    /* A lessee at depth 8 cannot create a lease. */
    ZIRKOSHE_RULE_SUB_LEASE = 35,
    /* No lessee of the owner has the id. */
    ZIRKOSHE_RULE_NO_LESSEE = 36,
    /* The lessee belongs to another master. */
    ZIRKOSHE_RULE_NOT_YOUR_LESSEE = 37,
    /* The framebuffer does not exist, or the caller may not remove it. */
    ZIRKOSHE_RULE_NO_FB = 38,
    /* The shape or size is out of range. */
    ZIRKOSHE_RULE_BAD_SIZE = 39,
    /* The CRTC cannot drive the connector or plane, or only one of framebuffer and connector is
     * not 0. */
    ZIRKOSHE_RULE_BAD_ROUTE = 40,
    /* The capability does not exist. */
    ZIRKOSHE_RULE_BAD_CAP = 41,
    /* No open lease token has the number. */
    ZIRKOSHE_RULE_NO_LEASE_TOKEN = 42,
    /* The limit of what the call would create is reached. */
    ZIRKOSHE_RULE_FULL = 43,
};

/* The faults, which are outside the rules. */
enum zirkoshe_apart_number {
    /* The journal has no room for the step. The rest of its room is reserved for closings. */
    ZIRKOSHE_APART_JOURNAL_FULL = 50,
    /* Memory for a new row was refused. */
    ZIRKOSHE_APART_NO_MEMORY = 51,
    /* The ticket counter is exhausted: no ticket is left for another turn of threads. */
    ZIRKOSHE_APART_WORN = 52,
};

/* A rule or a fault: its number, its error number and its name. */
struct zirkoshe_rule {
    uint32_t number;
    int error;
    const char *name;
};

/* Returns the rule or the fault with this number, or NULL. */
static inline const struct zirkoshe_rule *zirkoshe_find_rule(uint32_t number)
{
    /* clang-format off */
    static const struct zirkoshe_rule rules[] = {
        {1, 22, "Unknown"},
        {2, 22, "Layout"},
        {3, 22, "NoClient"},
        {11, 13, "RootOnly"},
        {12, 13, "Auth"},
        {13, 13, "Master"},
        {14, 13, "RenderAllow"},
        {21, 2, "NoHandle"},
        {22, 22, "NoHandleToClose"},
        {23, 2, "NoName"},
        {24, 2, "NoToken"},
        {25, 22, "NoMagic"},
        {26, 13, "MasterPerm"},
        {27, 16, "MasterBusy"},
        {28, 22, "NotCurrent"},
        {29, 22, "IsLessee"},
        {30, 2, "NoModeObject"},
        {31, 22, "NotLeasable"},
        {32, 22, "Repeated"},
        {33, 22, "LeaseShape"},
        {34, 16, "LeasedOut"},
        {35, 22, "SubLease"},
        {36, 2, "NoLessee"},
        {37, 13, "NotYourLessee"},
        {38, 2, "NoFb"},
        {39, 22, "BadSize"},
        {40, 22, "BadRoute"},
        {41, 22, "BadCap"},
        {42, 2, "NoLeaseToken"},
        {43, 28, "Full"},
        {50, 28, "JournalFull"},
        {51, 12, "NoMemory"},
        {52, 28, "Worn"},
    };
    /* clang-format on */
    size_t at;

    for (at = 0; at < sizeof rules / sizeof rules[0]; at++) {
        if (rules[at].number == number)
            return &rules[at];
    }
    return NULL;
}

/* The numbers of requests, each after its word and its fields in a script. */
enum zirkoshe_call_number {
    /* version */
    ZIRKOSHE_CALL_VERSION = 0x00,
    /* get_magic */
    ZIRKOSHE_CALL_GET_MAGIC = 0x02,
    /* gem_close handle */
    ZIRKOSHE_CALL_GEM_CLOSE = 0x09,
    /* gem_flink handle */
    ZIRKOSHE_CALL_GEM_FLINK = 0x0A,
    /* gem_open name */
    ZIRKOSHE_CALL_GEM_OPEN = 0x0B,
    /* get_cap cap */
    ZIRKOSHE_CALL_GET_CAP = 0x0C,
    /* set_client_cap cap value */
    ZIRKOSHE_CALL_SET_CLIENT_CAP = 0x0D,
    /* auth_magic magic */
    ZIRKOSHE_CALL_AUTH_MAGIC = 0x11,
    /* set_master */
    ZIRKOSHE_CALL_SET_MASTER = 0x1E,
    /* drop_master */
    ZIRKOSHE_CALL_DROP_MASTER = 0x1F,
    /* prime_export handle */
    ZIRKOSHE_CALL_PRIME_HANDLE_TO_FD = 0x2D,
    /* prime_import token */
    ZIRKOSHE_CALL_PRIME_FD_TO_HANDLE = 0x2E,
    /* buf_create size */
    ZIRKOSHE_CALL_BUF_CREATE = 0x40,
    /* stamp_write handle stamp */
    ZIRKOSHE_CALL_STAMP_WRITE = 0x41,
    /* stamp_read handle */
    ZIRKOSHE_CALL_STAMP_READ = 0x42,
    /* token_close token */
    ZIRKOSHE_CALL_TOKEN_CLOSE = 0x43,
    /* list_handles from */
    ZIRKOSHE_CALL_LIST_HANDLES = 0x44,
    /* audit kind from */
    ZIRKOSHE_CALL_AUDIT = 0x45,
    /* getresources */
    ZIRKOSHE_CALL_MODE_GETRESOURCES = 0xA0,
    /* getcrtc crtc */
    ZIRKOSHE_CALL_MODE_GETCRTC = 0xA1,
    /* setcrtc crtc framebuffer connector */
    ZIRKOSHE_CALL_MODE_SETCRTC = 0xA2,
    /* getencoder encoder */
    ZIRKOSHE_CALL_MODE_GETENCODER = 0xA6,
    /* getconnector connector */
    ZIRKOSHE_CALL_MODE_GETCONNECTOR = 0xA7,
    /* getfb framebuffer */
    ZIRKOSHE_CALL_MODE_GETFB = 0xAD,
    /* addfb width height pitch bpp handle */
    ZIRKOSHE_CALL_MODE_ADDFB = 0xAE,
    /* rmfb framebuffer */
    ZIRKOSHE_CALL_MODE_RMFB = 0xAF,
    /* create_dumb width height bpp */
    ZIRKOSHE_CALL_MODE_CREATE_DUMB = 0xB2,
    /* destroy_dumb handle */
    ZIRKOSHE_CALL_MODE_DESTROY_DUMB = 0xB4,
    /* getplaneresources */
    ZIRKOSHE_CALL_MODE_GETPLANERESOURCES = 0xB5,
    /* getplane plane */
    ZIRKOSHE_CALL_MODE_GETPLANE = 0xB6,
    /* setplane plane crtc framebuffer */
    ZIRKOSHE_CALL_MODE_SETPLANE = 0xB7,
    /* create_lease ids */
    ZIRKOSHE_CALL_MODE_CREATE_LEASE = 0xC6,
    /* list_lessees */
    ZIRKOSHE_CALL_MODE_LIST_LESSEES = 0xC7,
    /* get_lease */
    ZIRKOSHE_CALL_MODE_GET_LEASE = 0xC8,
    /* revoke_lease lessee */
    ZIRKOSHE_CALL_MODE_REVOKE_LEASE = 0xC9,
};

/* The numbers of answers. */
enum zirkoshe_answer_number {
    ZIRKOSHE_ANSWER_DONE = 0x1000,
    ZIRKOSHE_ANSWER_OPENED = 0x1001,
    ZIRKOSHE_ANSWER_VERSION = 0x1002,
    ZIRKOSHE_ANSWER_NUMBER = 0x1003,
    ZIRKOSHE_ANSWER_DUMB = 0x1004,
    ZIRKOSHE_ANSWER_BUFFER = 0x1005,
    ZIRKOSHE_ANSWER_RESOURCES = 0x1006,
    ZIRKOSHE_ANSWER_LIST = 0x1007,
    ZIRKOSHE_ANSWER_PLANE = 0x1008,
    ZIRKOSHE_ANSWER_FRAMEBUFFER = 0x1009,
    ZIRKOSHE_ANSWER_LEASE = 0x100A,
    ZIRKOSHE_ANSWER_AUDIT = 0x100B,
    ZIRKOSHE_ANSWER_CLOSED = 0x100C,
    ZIRKOSHE_ANSWER_DENIED = 0x2000,
    ZIRKOSHE_ANSWER_APART = 0x2001,
};

/* The kinds of rows of an audit, each after what a, b, c and d are. */
enum zirkoshe_audit_kind {
    /* Open clients: client, flags, master, magic. */
    ZIRKOSHE_AUDIT_CLIENT = 1,
    /* Masters: master, lessor, lessee id, open lease token. */
    ZIRKOSHE_AUDIT_MASTER = 2,
    /* Objects: object, size in bytes, handles, tokens and framebuffers. */
    ZIRKOSHE_AUDIT_OBJECT = 3,
    /* Flink names: name, object. */
    ZIRKOSHE_AUDIT_NAME = 4,
    /* PRIME tokens: token, exporter, object. */
    ZIRKOSHE_AUDIT_TOKEN = 5,
    /* Handles: client, handle, object, export order. */
    ZIRKOSHE_AUDIT_HOLD = 6,
    /* Leased objects: master, mode object. */
    ZIRKOSHE_AUDIT_GRANT = 7,
    /* Framebuffers: id, client, object. */
    ZIRKOSHE_AUDIT_FRAMEBUFFER = 8,
    /* What is shown: CRTC or plane, framebuffer. */
    ZIRKOSHE_AUDIT_SHOWN = 9,
    /* The device: its master, the last PRIME token, the last lease token, the journal's length. */
    ZIRKOSHE_AUDIT_DEVICE = 10,
};

/* The flags of a client, b of its row in an audit. */
enum zirkoshe_client_flag {
    ZIRKOSHE_CLIENT_RENDER = 1,
    ZIRKOSHE_CLIENT_ROOT = 2,
    ZIRKOSHE_CLIENT_AUTHENTICATED = 4,
    ZIRKOSHE_CLIENT_ONCE_MASTER = 8,
    ZIRKOSHE_CLIENT_MASTER = 16,
    ZIRKOSHE_CLIENT_MAGIC_SPENT = 32,
    ZIRKOSHE_CLIENT_UNIVERSAL_PLANES_OFF = 64,
};

/* The capabilities that drmGetCap knows. */
enum zirkoshe_cap {
    ZIRKOSHE_CAP_DUMB_BUFFER = 0x1,
    ZIRKOSHE_CAP_PRIME = 0x5,
};

/* The capabilities that drmSetClientCap sets. */
enum zirkoshe_client_cap {
    ZIRKOSHE_CLIENT_CAP_UNIVERSAL_PLANES = 2,
};

/* How much a served device holds at most. */
enum zirkoshe_limit {
    /* The most clients open at once, of all classes. */
    ZIRKOSHE_LIMIT_CLIENTS = 64,
    /* The most handles of one client. */
    ZIRKOSHE_LIMIT_HANDLES = 65535,
    /* The highest flink name. */
    ZIRKOSHE_LIMIT_NAMES = 65535,
    /* The highest PRIME token, and the highest lease token. */
    ZIRKOSHE_LIMIT_TOKENS = 65535,
    /* The most objects. */
    ZIRKOSHE_LIMIT_OBJECTS = 65535,
    /* The most framebuffers. */
    ZIRKOSHE_LIMIT_FRAMEBUFFERS = 64,
    /* The highest lessee id of one owner. */
    ZIRKOSHE_LIMIT_LESSEES = 64,
    /* The most steps that the journal records. */
    ZIRKOSHE_LIMIT_JOURNAL = 100000,
};

/* The hello's number, the lengths of frames, and how many ids and rows one has. */
enum zirkoshe_frame_limit {
    ZIRKOSHE_HELLO = 0x0100,
    ZIRKOSHE_LEAST_LENGTH = 2,
    ZIRKOSHE_MOST_LENGTH = 1024,
    ZIRKOSHE_MOST_IDS = 64,
    ZIRKOSHE_MOST_LEASED = 32,
    ZIRKOSHE_MOST_ROWS = 16,
};

#endif
