"""The standard streams, each of which may be closed or full. `say` writes a line to standard error, and never fails."""
import itertools
import os
import threading
import time

LEAST_SECONDS = 5  # what takes less isn't worth a word


def open_streams():
    """Opens each standard stream that is closed, so that no file gets its number. To read or to write there fails as before,
    and what is said on standard error is lost."""
    for number, mode in enumerate((os.O_WRONLY, os.O_RDONLY, os.O_WRONLY)):
        try:
            os.fstat(number)
        except OSError:
            os.set_inheritable(os.open(os.devnull, mode), True)


def say(line):
    """Writes the line to standard error, as far as that takes it."""
    try:
        os.write(2, f"{line}\n".encode(errors="backslashreplace"))
    except OSError:
        pass


def tell_large(name, file, speed, more):
    """Says at once how long this text takes if that is more than some seconds, by how many megabytes a second are done."""
    megabytes = os.fstat(file.fileno()).st_size / 1e6
    if megabytes > LEAST_SECONDS * speed:
        say(f"{name}: {megabytes:,.0f} MB take about {megabytes / speed:,.0f} seconds, {more}")


def tell_time(name):
    """Says at a terminal after 2 seconds how long this process has been running, after 4, after 8 and so on."""
    def tell():
        begun = time.monotonic()
        for seconds in (2 << doubled for doubled in itertools.count()):
            time.sleep(max(0, begun + seconds - time.monotonic()))
            say(f"{name}: {seconds} seconds so far")

    if os.isatty(2):
        threading.Thread(target=tell, daemon=True).start()
