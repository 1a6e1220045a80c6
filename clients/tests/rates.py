"""rates.py JOB SECONDS: as rates.c, by the Python module."""
import os
import signal
import sys
import time

import mqserve

DATA = bytes(64)


def begin():
    queues = [mqserve.MessageQueue(name, mqserve.O_CREAT, max_messages=10, max_message_size=64) for name in ("/rates-there", "/rates-back")]
    return queues, mqserve.Semaphore("/rates", mqserve.O_CREAT)


def job_of(name, queues, semaphore):
    there, back = queues

    def message():
        there.send(DATA)
        there.receive()

    def post_and_wait():
        semaphore.release()
        semaphore.acquire()

    def open_and_close():
        mqserve.MessageQueue("/rates-there").close()

    def there_and_back():
        there.send(DATA)
        back.receive()
    return {"message": message, "semaphore": post_and_wait, "open": open_and_close, "there-and-back": there_and_back}[name]


def answer():
    (there, back), _ = begin()
    while True:
        there.receive()
        back.send(DATA)


def main():
    name, length = sys.argv[1], float(sys.argv[2])
    other = os.fork() if name == "there-and-back" else 0
    if name == "there-and-back" and other == 0:
        answer()
    job, count = job_of(name, *begin()), 0
    for _ in range(10):
        job()
    start = now = time.monotonic()
    while now - start < length:
        for _ in range(16):
            job()
        count, now = count + 16, time.monotonic()
    print(count / (now - start))
    if other:
        os.kill(other, signal.SIGKILL)


if __name__ == "__main__":
    main()
