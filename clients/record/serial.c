#include "serial.h"
#include <errno.h>
#include <fcntl.h>
#include <stddef.h>
#include <termios.h>
#include <unistd.h>

static const struct {
    uint32_t baud;
    speed_t speed;
} SPEEDS[] = {{1200, B1200},   {2400, B2400},   {4800, B4800},     {9600, B9600},     {19200, B19200},
              {38400, B38400}, {57600, B57600}, {115200, B115200}, {230400, B230400}, {460800, B460800}, {921600, B921600}};

static bool find_speed(uint32_t baud, speed_t *speed) {
    for (size_t at = 0; at < sizeof SPEEDS / sizeof *SPEEDS; at++) {
        if (SPEEDS[at].baud != baud) continue;
        *speed = SPEEDS[at].speed;
        return true;
    }
    return false;
}

bool serial_has_speed(uint32_t baud) {
    speed_t speed;
    return find_speed(baud, &speed);
}

/* Eight bits, no parity, no echo, and no byte that means something. */
static void make_raw(struct termios *modes) {
    modes->c_iflag &= ~(tcflag_t)(IGNBRK | BRKINT | PARMRK | ISTRIP | INLCR | IGNCR | ICRNL | IXON | IXOFF);
    modes->c_oflag &= ~(tcflag_t)OPOST;
    modes->c_lflag &= ~(tcflag_t)(ECHO | ECHONL | ICANON | ISIG | IEXTEN);
    modes->c_cflag &= ~(tcflag_t)(CSIZE | PARENB | CSTOPB);
    modes->c_cflag |= CS8 | CREAD | CLOCAL;
    modes->c_cc[VMIN] = 1;
    modes->c_cc[VTIME] = 0;
}

static bool set_modes(int fd, uint32_t baud) {
    struct termios modes;
    speed_t speed;
    if (!find_speed(baud, &speed)) {
        errno = EINVAL;
        return false;
    }
    if (tcgetattr(fd, &modes) != 0) return false;
    make_raw(&modes);
    if (cfsetispeed(&modes, speed) != 0 || cfsetospeed(&modes, speed) != 0) return false;
    int status;
    do status = tcsetattr(fd, TCSANOW, &modes);
    while (status != 0 && errno == EINTR);
    return status == 0;
}

/* It is opened without waiting for a carrier, and never becomes the terminal of this program, whose end would be its end. */
int serial_open(const char *path, uint32_t baud) {
    int fd = open(path, O_RDWR | O_NOCTTY | O_NONBLOCK | O_CLOEXEC);
    if (fd < 0 || set_modes(fd, baud)) return fd;
    int error = errno;
    (void)close(fd);
    errno = error;
    return -1;
}
