/* The display's control socket, which the user that started the display may connect to. */
#ifndef ZIRKOSHE_LIBDRM_CONTROLS_H
#define ZIRKOSHE_LIBDRM_CONTROLS_H

/* What follows the path of the display's socket in that of its control socket */
#define CONTROL_SUFFIX ".control"

/* Accepts a connection of a listener. A thread answers its packets. */
void control_accept(int listener);

#endif
