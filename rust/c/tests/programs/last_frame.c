// For LD_PRELOAD: before a window goes, the file $SCREEN, in which Xvfb has its screen, is copied to
// $LAST_FRAME. What was presented needs a moment to be shown.
#define _GNU_SOURCE
#include <dlfcn.h>
#include <stdint.h>
#include <stdlib.h>
#include <string.h>
#include <unistd.h>

typedef struct {
    unsigned int sequence;
} xcb_cookie;

typedef xcb_cookie (*xcb_destroy)(void *connection, uint32_t window);
typedef int (*x_destroy)(void *display, unsigned long window);

static void take_picture(void) {
    unsetenv("LD_PRELOAD"); // for cp
    usleep(300000);
    if (system("cp \"$SCREEN\" \"$LAST_FRAME\"") != 0)
        abort();
}

// A pointer of void isn't one of a function, for ISO C.
static void find(const char *name, void *function) {
    void *found = dlsym(RTLD_NEXT, name);
    if (found == NULL)
        abort();
    memcpy(function, &found, sizeof found);
}

xcb_cookie xcb_destroy_window(void *connection, uint32_t window) {
    xcb_destroy next;
    find("xcb_destroy_window", &next);
    take_picture();
    return next(connection, window);
}

int XDestroyWindow(void *display, unsigned long window) {
    x_destroy next;
    find("XDestroyWindow", &next);
    take_picture();
    return next(display, window);
}
