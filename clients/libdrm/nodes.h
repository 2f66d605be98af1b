/* The nodes of the device, and the names by which a descriptor of one is recognized. */
#ifndef ZIRKOSHE_LIBDRM_NODES_H
#define ZIRKOSHE_LIBDRM_NODES_H

#include <stdbool.h>
#include <stdint.h>
#include <sys/types.h>

enum node { NODE_CARD, NODE_RENDER, NODE_ROOT };

#define NODE_KINDS 3

/* Returns the path of the server's socket for this node, or NULL if there is no such node. */
const char *node_path(enum node node);

/* The display's end of a node's packet socket has an abstract address that begins with this and the
 * number of the node. So the other end, which a program has, is recognized by its peer. */
#define NODE_NAME "zirkoshe-node-"

/* Whether a descriptor is a node, and which. */
bool is_node(int fd, enum node *node);

/* Likewise those of fences and of synchronisation objects, whose names end with a number. */
#define FENCE_NAME "zirkoshe-fence-"
#define SYNCOBJ_NAME "zirkoshe-syncobj-"

/* Returns the number of a fence or a synchronisation object that a descriptor represents, or 0. */
unsigned long fence_number(int fd);
unsigned long syncobj_number(int fd);

/* Whether a path names a descriptor of a process, and its number: opened again, a node is another
 * client, as in a kernel. */
bool names_descriptor(const char *path, pid_t process, int *fd);

/* The name of buffers' memory, and whether a descriptor is such. */
#define MEMORY_NAME "zirkoshe-buffer"

bool is_memory(int fd);

#endif
