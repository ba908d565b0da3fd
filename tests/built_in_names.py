"""The built-in names, by what they stand for: written by hand, apart from the program's own tables."""

GROUPS = {
    "size_t": ('int', 64, False),
    "ssize_t off_t time_t clock_t ptrdiff_t intptr_t int64_t": ('int', 64, True),
    "uintptr_t uint64_t pthread_t nfds_t": ('int', 64, False),
    "pid_t clockid_t int32_t sig_atomic_t": ('int', 32, True),
    "uid_t gid_t mode_t socklen_t uint32_t in_addr_t": ('int', 32, False),
    "uint16_t sa_family_t in_port_t": ('int', 16, False),
    "int16_t": ('int', 16, True),
    "uint8_t": ('int', 8, False),
    "int8_t": ('int', 8, True),
    "sigset_t": ("set",),
    "siginfo_t": ("struct", 12),
    "FILE pthread_attr_t pthread_mutex_t pthread_mutexattr_t pthread_cond_t pthread_condattr_t sem_t fd_set": ("kernel",),
}
TYPES = {name: kind for names, kind in GROUPS.items() for name in names.split()}

LONG, INT, TEXT, POINTER = ("int", 64, True), ("int", 32, True), ("arr", ("int", 8, True)), ("ptr", ("void",))
LONGS = {
    "timespec": "tv_sec tv_nsec",
    "timeval": "tv_sec tv_usec",
    "stat": "st_mode st_size st_uid st_gid st_mtime st_ino st_dev st_nlink",
    "pollfd": "fd events revents",
    "tm": "tm_sec tm_min tm_hour tm_mday tm_mon tm_year tm_wday tm_yday tm_isdst",
    "tms": "tms_utime tms_stime tms_cutime tms_cstime",
    "in_addr": "s_addr",
    "sockaddr": "sa_family",
}
STRUCTURES = [(tag, [(name, LONG) for name in names.split()]) for tag, names in LONGS.items()] + [
    ("sockaddr_in", [("sin_family", LONG), ("sin_port", LONG), ("sin_addr", ("struct", 6))]),
    ("sockaddr_un", [("sun_family", LONG), ("sun_path", TEXT)]),
    ("utsname", [(name, TEXT) for name in "sysname nodename release version machine".split()]),
    ("sigaction", [("sa_handler", ("fn", (INT,), ("void",))), ("sa_sigaction", ("fn", (INT, POINTER, POINTER), ("void",))), ("sa_mask", ("set",)), ("sa_flags", INT)]),
    (None, [(name, LONG) for name in "si_signo si_code si_errno si_pid si_uid si_status".split()]),
]

SIGNALS = """SIGABRT SIGALRM SIGBUS SIGCHLD SIGCONT SIGFPE SIGHUP SIGILL SIGINT SIGKILL SIGPIPE SIGPOLL SIGPROF SIGQUIT SIGSEGV SIGSTOP SIGSYS SIGTERM SIGTRAP SIGTSTP SIGTTIN SIGTTOU SIGURG SIGUSR1 SIGUSR2 SIGVTALRM SIGXCPU SIGXFSZ""".split()
NUMBERS = dict(SIG_BLOCK=1, SIG_UNBLOCK=2, SIG_SETMASK=3, SA_NOCLDSTOP=1, SA_NODEFER=2, SA_RESETHAND=4, SA_RESTART=8, SA_SIGINFO=16, SA_ONSTACK=32,
               SA_NOCLDWAIT=64, EXIT_SUCCESS=0, STDIN_FILENO=0, STDOUT_FILENO=1, STDERR_FILENO=2, INT_MAX=2147483647)
VALUES = {name: ("number", number) for number, name in enumerate(SIGNALS, 1)}
VALUES.update({name: ("number", number) for name, number in NUMBERS.items()})
VALUES.update({"NULL": ("null",), "SIG_DFL": ("disposition",), "SIG_IGN": ("disposition",), "SIG_ERR": ("disposition",)})
VALUES.update({name: ("initializer",) for name in ("PTHREAD_MUTEX_INITIALIZER", "PTHREAD_COND_INITIALIZER")})
VALUES.update({name: ("stream",) for name in ("stdin", "stdout", "stderr")})
OPEN = """EACCES EAGAIN EBADF ECHILD ECONNREFUSED ECONNRESET EEXIST EINTR EINVAL EIO EISDIR ENOENT ENOMEM ENOSPC ENOTDIR EPERM EPIPE ESRCH
ETIMEDOUT EWOULDBLOCK O_APPEND O_CLOEXEC O_CREAT O_EXCL O_NONBLOCK O_RDONLY O_RDWR O_TRUNC O_WRONLY F_GETFD F_GETFL F_SETFD
F_SETFL FD_CLOEXEC S_IRUSR S_IWUSR S_IXUSR S_IRWXU SEEK_SET SEEK_CUR SEEK_END AF_INET AF_UNIX SOCK_STREAM SOCK_DGRAM SOL_SOCKET
SO_REUSEADDR SOMAXCONN INADDR_ANY POLLIN POLLOUT POLLERR POLLHUP CLOCK_REALTIME CLOCK_MONOTONIC WNOHANG WUNTRACED EXIT_FAILURE EOF
BUFSIZ PATH_MAX LOG_ERR LOG_WARNING LOG_INFO LOG_DEBUG""".split()
LEFT_OUT = """setjmp longjmp sigsetjmp siglongjmp pthread_exit pthread_cancel pthread_cleanup_push pthread_cleanup_pop vfork posix_spawn
posix_spawnp sigaltstack sigpause sigset sigqueue qsort bsearch atexit at_quick_exit pthread_once pthread_key_create timer_create
aio_read aio_write""".split()
