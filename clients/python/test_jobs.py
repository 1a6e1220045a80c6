"""The tests of mqserve.jobs, beside a server: MQSERVE and MQSERVE_KEY, as tests/with_server sets them. Sessions are stepped request by
request: one is killed before each of its requests, and several go on in turns that are drawn."""
import os
import random
import signal
import socket
import sys
import threading
import time
import unittest

import mqserve as ipc
from mqserve import _errors as errors, _sessions as sessions, _waits as waits, jobs as mqserve_jobs
from test_mqserve import BUSY_S, Liar, in_child, rule_of

SCHEDULES = int(os.environ.get("SCHEDULES", "25"))
OTHER = "ka1" if os.environ["MQSERVE_KEY"] == "kb1" else "kb1"
stepping = threading.local()


class Killed(BaseException):
    """Ends a call as SIGKILL would."""


class Stepped(mqserve_jobs._Session):
    """A session that stops before each request, where a Call makes it."""

    def ask(self, *words):
        call = getattr(stepping, "call", None)
        if call is not None:
            call.stop_at(self)
        return super().ask(*words)

    def hang_up(self):
        """Ends the stream, and waits until the server has seen it."""
        self.socket.shutdown(socket.SHUT_WR)
        self.socket.setblocking(True)
        while self.socket.recv(65536):
            pass
        self.close()


class Pool(mqserve_jobs.Jobs):
    _session_type = Stepped


class Call:
    """A call on a thread of its own, which goes on by one request at a step."""

    def __init__(self, call, *words):
        self.turn, self.back = threading.Semaphore(0), threading.Semaphore(0)
        self.is_over = self.is_killed = False
        self.requests, self.result, self.error = 0, None, None
        self.thread = threading.Thread(target=self.run, args=(call, words), daemon=True)
        self.thread.start()
        self.back.acquire()

    def run(self, call, words):
        stepping.call = self
        try:
            self.result = call(*words)
        except Killed:
            pass
        except Exception as error:
            self.error = error
        self.is_over = True
        self.back.release()

    def stop_at(self, session):
        self.back.release()
        self.turn.acquire()
        if self.is_killed:
            session.hang_up()
            raise Killed
        self.requests += 1

    def step(self, count=1):
        for _ in range(count):
            if not self.is_over:
                self.turn.release()
                self.back.acquire()

    def kill(self):
        self.is_killed = not self.is_over
        self.step()

    def finish(self):
        while not self.is_over:
            self.step()
        if self.error is not None:
            raise self.error
        return self.result


class Pooled(unittest.TestCase):
    """A pool of a test's own, which leaves nothing behind."""
    count = 0

    def setUp(self):
        self.made = []
        self.renew()

    def renew(self):
        """Another pool."""
        self.clear()
        Pooled.count += 1
        self.name = f"/jobs-{os.getpid()}-{Pooled.count}"
        self.jobs = self.pool()

    def pool(self, tries=3, name=None, key=None):
        before = ipc._server
        if key is not None:
            ipc._server = sessions.Server(os.environ["MQSERVE"], key, 0, None)
        try:
            self.made.append(Pool(name or self.name, tries, look=0.2))
        finally:
            ipc._server = before
        return self.made[-1]

    def tearDown(self):
        self.clear()

    def clear(self):
        if self.made:
            root = self.pool(key="r00t")                # some are of others
            with root._calls() as session:
                for name in [*root._names(session), root._pool]:
                    session.unlink(name)
        for pool in self.made:
            pool.close()
        self.made = []

    def kill_dead(self, name="/none"):
        """Uses up all tries, and returns the dead job's name."""
        with self.assertRaises(ipc.BusyError):
            while True:
                self.jobs.take(0).give_back()
        [dead] = self.jobs.dead()
        return dead

    def drain(self):
        """All data that can still be had from the pool, which is empty then."""
        pool, found = self.pool(), []
        pool.sweep()
        while True:
            try:
                with pool.take(0) as job:
                    found.append(job.data)
            except ipc.BusyError:
                break
        found += [pool.bury(name) for name in pool.dead()]
        self.assertEqual(pool.pending(), 0)
        return found

    def mode_of(self, name):
        with self.jobs._calls() as session:
            return session.stat(os.fsencode(name))[1]


class Calls(Pooled):
    def test_put_and_take(self):
        names = [self.jobs.put(data) for data in (b"one", "tw\u00f6", b"")]
        self.assertEqual(self.jobs.pending(), 3)
        self.assertRegex(names[0], self.name + r"\.job-[0-9a-f]{16}$")
        found = {}
        for _ in names:
            with self.jobs.take(0) as job:
                found[job.name] = job.data
                self.assertEqual(job.tries_left, 2)
        self.assertEqual(found, dict(zip(names, (b"one", "tw\u00f6".encode(), b""))))
        self.assertEqual(self.jobs.pending(), 0)

    def test_no_job(self):
        self.assertRaises(ipc.BusyError, self.jobs.take, 0)
        start = time.monotonic()
        self.assertRaises(ipc.BusyError, self.jobs.take, 0.5)
        self.assertGreater(time.monotonic() - start, 0.49)
        self.assertRaises(ValueError, self.jobs.take, -1)

    def test_arguments(self):
        for words in ((0,), (1 << 32,), (3, 0), (3, float("nan"))):
            self.assertRaises(ValueError, mqserve_jobs.Jobs, self.name, *words)
        self.assertRaises(ValueError, self.jobs.take, float("nan"))
        self.assertEqual(rule_of(self, mqserve_jobs.Jobs, "no slash"), 4)
        self.assertRaises(ValueError, mqserve_jobs.Jobs, "/" + "n" * 235)
        self.clear()
        self.name = "/" + "n" * 234
        self.pool().put("one")

    def test_take_waits(self):
        threading.Timer(0.1, self.pool().put, ("late",)).start()
        with self.jobs.take() as job:
            self.assertEqual(job.data, b"late")

    def test_woken_at_once(self):
        for look in (60, float("inf")):
            self.jobs.look = look
            self.jobs.take(self.jobs.put("first") and 0).done()
            start = time.monotonic()
            threading.Timer(0.1, self.pool().put, ("late",)).start()
            self.jobs.take().done()
            self.assertLess(time.monotonic() - start, 20)

    def test_given_back(self):
        self.jobs.put("again")
        with self.assertRaises(KeyError), self.jobs.take(0) as job:
            raise KeyError
        with self.jobs.take(0) as job:
            self.assertEqual((job.data, job.tries_left), (b"again", 1))
            job.done()
        self.assertRaises(ipc.ExistentialError, job.done)
        self.assertRaises(ipc.ExistentialError, job.give_back)

    def test_more_jobs_than_tokens(self):
        self.jobs.look = 60
        self.assertRaises(ipc.BusyError, self.jobs.take, 0)         # no look is due any more
        start = time.monotonic()
        for i in range(30):
            self.jobs.put(str(i))
        self.assertEqual(sorted(int(self.jobs.take(30).data) for _ in range(30)), list(range(30)))
        self.assertLess(time.monotonic() - start, 20)

    def put_without_token(self, data):
        self.jobs.put(data)
        ipc.MessageQueue(self.name).receive(0)

    def test_no_token(self):
        self.jobs.look = 60
        self.assertRaises(ipc.BusyError, self.jobs.take, 0)
        self.put_without_token("one")
        self.assertEqual(self.jobs.take(0).data, b"one")

    def test_no_token_beside_others(self):
        """Its turn comes with the next look, also where there are always tokens."""
        self.assertRaises(ipc.BusyError, self.jobs.take, 0)
        self.put_without_token("oldest")
        for _ in range(5):
            self.jobs.put("later")
        self.assertEqual(self.jobs.take(0).data, b"later")
        time.sleep(0.25)
        self.assertEqual(self.jobs.take(0).data, b"oldest")

    def test_tries_are_used_up(self):
        self.jobs.put("deadly")
        dead = self.kill_dead()
        self.assertRaises(ipc.BusyError, self.jobs.take, 0)
        self.assertEqual((self.mode_of(dead), self.jobs.pending()), (0o400, 1))
        self.assertEqual(self.jobs.bury(dead), b"deadly")
        self.assertEqual((self.jobs.dead(), self.jobs.pending()), ([], 0))
        self.assertRaises(ipc.ExistentialError, self.jobs.bury, dead)

    def test_dead_before_anybody_looked(self):
        self.jobs = self.pool(tries=1)
        name = self.jobs.put("deadly")
        job = self.jobs.take(0)
        self.assertEqual(self.jobs.dead(), [])
        job.give_back()
        self.assertEqual((self.jobs.dead(), self.mode_of(name)), ([name], 0o600))
        self.assertEqual(self.jobs.bury(name), b"deadly")

    def test_not_dead(self):
        name = self.jobs.put("alive")
        for free in (name, self.name, self.name + ".job-0123456789abcdef", "/other"):
            self.assertRaises(ipc.ExistentialError, self.jobs.bury, free)
            self.assertRaises(ipc.ExistentialError, self.jobs.revive, free)
        job = self.jobs.take(0)
        self.assertRaises(ipc.ExistentialError, self.jobs.bury, name)
        self.assertRaises(ipc.ExistentialError, self.jobs.revive, name)
        self.assertRaises(TypeError, self.jobs.bury, None)              # no claim ends by what is no name
        self.assertRaises(UnicodeEncodeError, self.jobs.revive, "\ud800")
        job.done()

    def test_revive(self):
        self.jobs.put("again")
        dead = self.kill_dead()
        new = self.jobs.revive(dead)
        self.assertNotEqual(new, dead)
        with self.jobs.take(0) as job:
            self.assertEqual((job.name, job.data, job.tries_left), (new, b"again", 2))
        self.assertEqual(self.jobs.pending(), 0)

    def test_revive_is_refused(self):
        self.jobs.put("again")
        dead = self.kill_dead()
        for _ in range(3):
            self.assertEqual(rule_of(self, self.pool(tries=70000).revive, dead), 20)
        self.jobs.revive(dead)
        self.jobs.take(0).done()

    def test_put_is_refused(self):
        self.assertEqual(rule_of(self, self.jobs.put, bytes(1 << 21)), 20)
        self.assertEqual(rule_of(self, self.pool(tries=70000).put, b""), 20)
        with self.assertRaises(OSError) as caught:
            for _ in range(200):
                self.jobs.put(bytes(8192))
        self.assertEqual(caught.exception.rule, 23)
        self.jobs.take(0).done()
        self.jobs.put(bytes(8192))

    def test_put_is_refused_late(self):
        """Behind the create: nothing is left of it."""
        def refused(*_):
            raise errors.refusal(18)
        with self.jobs._calls() as session:
            session.chmod = refused
        self.assertEqual(rule_of(self, self.jobs.put, "one"), 18)
        self.assertEqual(self.jobs.pending(), 0)

    def test_what_is_no_data(self):
        for data in (3, [1, 2], None):
            self.assertRaises(TypeError, self.jobs.put, data)
        self.jobs.put(bytearray(b"bytes"))
        self.assertEqual(self.jobs.take(0).data, b"bytes")

    def test_sweep_of_nothing(self):
        self.jobs.put("one")
        job = self.jobs.take(0)
        self.assertEqual(self.jobs.sweep(), 0)
        job.give_back()
        self.kill_dead()
        self.assertEqual((self.jobs.sweep(), self.jobs.pending()), (0, 1))

    def test_handler_that_raises(self):
        def stop(*_):
            raise TimeoutError
        signal.signal(signal.SIGALRM, stop)
        signal.setitimer(signal.ITIMER_REAL, 0.3)
        self.assertRaises(TimeoutError, self.jobs.take)
        self.pool().put("one")
        self.jobs.take(5).done()

    def test_handler_that_raises_amid_calls(self):
        """A request whose answer nobody read ends the session, so no later call takes that answer for its own."""
        name = self.jobs.put("one")
        session, fields_of = self.jobs._session, self.jobs._session.fields_of

        def interrupted(*_):
            session.fields_of = fields_of
            raise KeyboardInterrupt
        session.fields_of = interrupted
        self.assertRaises(KeyboardInterrupt, self.jobs.take, 0)
        self.assertTrue(session.lost)
        self.assertEqual(self.jobs.take(5).name, name)

    def interrupt(self, method, call):
        """Makes a call at the next use of a session's method, as a signal's handler may."""
        def interrupted(*words):
            delattr(Stepped, method)
            call()
            return getattr(mqserve_jobs._Session, method)(*words)
        setattr(Stepped, method, interrupted)

    def test_handler_that_calls(self):
        """Amid a request it is refused, and nothing else ends. While another call connects it connects too."""
        job = self.jobs.take(self.jobs.put("one") and 0)
        self.interrupt("await_answer", lambda: self.assertRaises(ipc.BusyError, self.jobs.pending))
        self.assertEqual(self.jobs.pending(), 1)
        job.done()
        self.jobs.close()
        self.interrupt("stat", lambda: self.jobs.put("one"))
        self.jobs.put("two")
        self.assertEqual({self.jobs.take(0).data, self.jobs.take(0).data}, {b"one", b"two"})

    def test_threads(self):
        done, lock = [], threading.Lock()

        def work():
            while True:
                try:
                    with self.jobs.take(1) as job, lock:
                        done.append(job.data)
                except ipc.BusyError:
                    return
        threads = [threading.Thread(target=work) for _ in range(3)]
        threads += [threading.Thread(target=lambda n=n: [self.jobs.put(f"{n} {i}") for i in range(20)]) for n in range(2)]
        for thread in threads:
            thread.start()
        for thread in threads:
            thread.join(60)
        self.assertEqual(sorted(done), sorted(f"{n} {i}".encode() for n in range(2) for i in range(20)))

    def test_lies(self):
        for page in (b"\0\1\0\2/", b"\0\2\0\2/a", b"\0\1\0\2/ab", b"\0\0/"):
            with self.subTest(page=page):
                liar = Liar((len(page) + 1).to_bytes(4, "big") + b"I" + page)
                session = mqserve_jobs._Session(liar.address, "key", 5.0)
                self.assertRaises(ipc.ConnectionLost, session.page, 0)
                liar.listener.close()


class Sessions(Pooled):
    def test_connection_is_lost(self):
        self.jobs.put("one")
        job = self.jobs.take(0)
        self.jobs._session.hang_up()
        self.assertRaises(ipc.ConnectionLost, job.done)
        self.assertRaises(ipc.ConnectionLost, job.give_back)
        again = self.jobs.take(0)
        self.assertEqual((again.name, again.tries_left), (job.name, 1))
        self.assertRaises(ipc.ConnectionLost, job.done)
        with self.assertRaises(KeyError), again:    # and not ConnectionLost
            self.jobs._session.hang_up()
            raise KeyError

    def test_waits_on_after_a_loss(self):
        threading.Timer(0.3, lambda: self.jobs._waiter.socket.shutdown(socket.SHUT_RDWR)).start()
        threading.Timer(0.6, self.pool().put, ("late",)).start()
        self.jobs.take(30).done()

    def test_no_second_connection(self):
        self.jobs._connected_waiter = lambda seconds: None
        threading.Timer(0.3, self.pool().put, ("late",)).start()
        self.jobs.take(30).done()

    def test_no_free_worker(self):
        """A wait for the second connection ends with the call's own."""
        with socket.create_server(("127.0.0.1", 0)) as nobody:
            self.jobs._server = sessions.Server("127.0.0.1:%d" % nobody.getsockname()[1], "key", 0, None)
            self.addCleanup(setattr, waits, "SIDE_S", waits.SIDE_S)
            waits.SIDE_S = 10.0
            start = time.monotonic()
            self.assertRaises(ipc.BusyError, self.jobs.take, 0.3)
            self.assertLess(time.monotonic() - start, 0.3 + BUSY_S)

    def test_fork(self):
        self.jobs.put("one")
        job = self.jobs.take(0)

        def in_the_child():
            self.assertRaises(ipc.ConnectionLost, job.done)
            self.assertRaises(ipc.BusyError, self.jobs.take, 0)
            self.jobs.put("two")
        self.assertEqual(in_child(in_the_child), 0)
        self.assertEqual(self.jobs.take(5).data, b"two")
        job.done()

    def test_killed_worker(self):
        self.jobs.put("one")
        for tries_left in (1, 0):
            ready, tell = os.pipe()
            pid = os.fork()
            if pid == 0:
                os.write(tell, self.jobs.take(5).data)
                time.sleep(60)
                os._exit(1)
            self.assertEqual(os.read(ready, 3), b"one")
            self.assertRaises(ipc.BusyError, self.jobs.take, 0)
            os.kill(pid, signal.SIGKILL)
            os.waitpid(pid, 0)
            if tries_left == 1:
                job = self.jobs.take(5)
                self.assertEqual((job.data, job.tries_left), (b"one", tries_left))
                job.give_back()
        while not self.jobs.dead():
            time.sleep(0.01)
        self.assertEqual(self.jobs.bury(self.jobs.dead()[0]), b"one")

    def test_closed(self):
        self.jobs.put("one")
        self.jobs.take(0)
        self.jobs.close()
        self.assertEqual(self.jobs.take(5).data, b"one")


class Users(Pooled):
    """Others than the one whose pool it is."""

    def test_pool_of_another(self):
        self.assertEqual(rule_of(self, self.pool, key=OTHER), 15)
        with self.jobs._calls() as session:
            session.chmod(self.jobs._pool, 0o666)
        self.assertEqual(rule_of(self, self.pool, key=OTHER), 19)

    def test_job_of_another(self):
        other = self.pool(name=self.name + "b", key=OTHER)
        with other._calls() as session:
            for name, mode in ((self.name + ".job-0123456789abcdef", 0o666), (self.name + ".job-0123456789abcde0", 0o600)):
                queue = session.open(name.encode(), 2, 5, mode, (5, 3))
                for _ in range(5):
                    session.send(queue, b"bad")
                session.let_go(queue)
        with self.jobs._calls() as session:
            self.jobs._wake(session, self.name.encode() + b".job-0123456789abcdef")
        taking = Call(self.jobs.take, 0)
        while taking.requests < 3:                      # the token, and its queue is open
            taking.step()
        with other._calls() as session:
            session.chmod(self.name.encode() + b".job-0123456789abcdef", 0o600)
        self.assertRaises(ipc.BusyError, taking.finish)
        self.assertEqual((self.jobs.dead(), self.jobs.sweep()), ([], 0))
        self.assertRaises(ipc.BusyError, self.pool(key="r00t").take, 0)
        with other._calls() as session:
            for name in self.jobs._names(session):
                session.unlink(name)
            session.unlink(other._pool)

    def test_root_puts(self):
        self.pool(key="r00t").put("one")
        with self.jobs.take(0) as job:
            self.assertEqual(job.data, b"one")
        self.pool(key="r00t").put("two")
        self.kill_dead()

    def test_root_works(self):
        root = self.pool(key="r00t")
        self.jobs.put("one")
        with root.take(0) as job:
            self.assertEqual(job.data, b"one")
        self.jobs.put("two")
        self.kill_dead()
        self.assertRaises(ipc.BusyError, root.take, 0)
        self.jobs.take(root.revive(root.dead()[0]) and 0).done()

    def test_root_may_open_what_is_put(self):
        root, count = self.pool(key="r00t"), 0
        putting = Call(self.jobs.put, "one")
        while not putting.is_over:
            try:
                job = root.take(0)
                count += 1
                job.give_back()
            except ipc.BusyError:
                pass
            putting.step()
        self.assertLessEqual(count, 2)
        self.assertEqual(self.drain(), [b"one"])

    def test_root_sweeps_its_own(self):
        root = self.pool(key="r00t")
        putting = Call(root.put, "one")
        putting.step(3)
        putting.kill()
        self.assertEqual((self.jobs.sweep(), self.pool(key="r00t").sweep()), (0, 1))


class Steps(Pooled):
    """One session is killed before each of its requests, or stops there while others go on."""

    def each_stop(self, prepare, call):
        """For each request of a call, and its end: how many were made, the call, and what was prepared for it."""
        requests, is_over = 0, False
        while not is_over:
            self.renew()
            prepared = prepare()
            stopped = Call(call, prepared)
            stopped.step(requests)
            is_over = stopped.is_over
            try:
                yield requests, stopped, prepared
            except GeneratorExit:
                print(f"where it stopped behind {requests} requests:", file=sys.stderr)
                raise
            requests += 1

    def nothing(self):
        return None

    def one_job(self):
        return self.jobs.put("one")

    def taken(self):
        self.jobs.put("one")
        return self.jobs.take(0)

    def dead_one(self):
        self.jobs.put("one")
        return self.kill_dead()

    def test_put_is_killed(self):
        seen = set()
        for requests, putting, _ in self.each_stop(self.nothing, lambda _: self.pool().put("one")):
            returned = putting.is_over
            putting.kill()
            swept, found = self.pool().sweep(), self.drain()
            self.assertLessEqual(len(found) + swept, 1)
            if returned:
                self.assertEqual(found, [b"one"])
            seen.add((len(found), swept))
        self.assertEqual(seen, {(0, 0), (0, 1), (1, 0)})

    def test_take_is_killed(self):
        left = set()
        for requests, taking, _ in self.each_stop(self.one_job, lambda _: self.pool().take(0)):
            self.made[-1]._session.hang_up() if taking.is_over else taking.kill()
            job = self.jobs.take(0)
            self.assertEqual(job.data, b"one")
            left.add(job.tries_left)
            job.done()
            self.assertEqual(self.drain(), [])
        self.assertEqual(left, {1, 2})

    def test_done_is_killed(self):
        seen = set()
        for requests, ending, _ in self.each_stop(self.taken, lambda job: job.done()):
            ending.kill()
            found = self.drain()
            self.assertIn(found, ([b"one"], []) if requests == 0 else ([],))
            seen.add(len(found))
        self.assertEqual(seen, {0, 1})

    def test_give_back_is_killed(self):
        for _, giving, _ in self.each_stop(self.taken, lambda job: job.give_back()):
            giving.kill()
            self.assertEqual(self.drain(), [b"one"])

    def test_bury_is_killed(self):
        seen = set()
        for _, burying, dead in self.each_stop(self.dead_one, lambda dead: self.pool().bury(dead)):
            burying.kill()
            found = self.drain()
            if burying.is_killed:
                self.assertIn(found, ([b"one"], []))
            seen.add((len(found), burying.result))
        self.assertEqual(seen, {(1, None), (0, None), (0, b"one")})

    def test_revive_is_killed(self):
        seen = set()
        for _, reviving, dead in self.each_stop(self.dead_one, lambda dead: self.pool().revive(dead)):
            reviving.kill()
            found = self.drain()
            self.assertIn(len(found), (1, 2))
            self.assertEqual(set(found), {b"one"})
            seen.add(len(found))
        self.assertEqual(seen, {1, 2})

    def test_revive_is_killed_twice(self):
        for _, reviving, dead in self.each_stop(self.dead_one, lambda dead: self.pool().revive(dead)):
            reviving.kill()
            if dead in self.jobs.dead():
                again = Call(self.pool().revive, dead)
                while not again.is_over and self.jobs.pending() < 3:
                    again.step()
                again.kill()
            self.assertIn(b"one", self.drain())

    def test_sweep_is_killed(self):
        def left_behind():
            putting = Call(self.pool().put, "one")
            putting.step(5)
            putting.kill()
        removed = set()
        for _, sweeping, _ in self.each_stop(left_behind, lambda _: self.pool().sweep()):
            sweeping.kill()
            removed.add((sweeping.result, self.jobs.sweep()))
            self.assertEqual(self.jobs.pending(), 0)
        self.assertEqual(removed, {(None, 1), (None, 0), (1, 0)})

    def test_last_copy(self):
        """What a revive leaves that was killed once it had a copy."""
        self.jobs.put("one")
        dead = self.kill_dead()
        reviving = Call(self.pool().revive, dead)
        while self.copies(dead) == 2:
            reviving.step()
        reviving.kill()
        self.assertEqual(self.jobs.dead(), [dead])
        self.assertRaises(ipc.ExistentialError, self.jobs.revive, dead)
        self.assertEqual((self.jobs.bury(dead), self.jobs.sweep(), self.jobs.pending()), (b"one", 1, 0))

    def copies(self, name):
        with self.jobs._calls() as session:
            queue = session.open(name.encode(), 1, 4)
            count, _ = session.state(queue)
            session.let_go(queue)
            return count

    def test_claim_against_done(self):
        """A worker that opened the queue before its job was done sees that it is over, wherever it stopped."""
        opened = 0
        for requests, taking, job in self.each_stop(self.taken, lambda _: self.pool().take(0)):
            job.done()
            opened += requests > 0
            self.assertRaises(ipc.BusyError, taking.finish)
            self.assertEqual(self.drain(), [])
        self.assertGreater(opened, 3)

    def test_claim_against_give_back(self):
        for _, taking, job in self.each_stop(self.taken, lambda _: self.pool().take(0)):
            job.give_back()
            try:
                taken = taking.finish()
                self.assertEqual(taken.tries_left, 1)
                taken.done()
                self.assertEqual(self.drain(), [])
            except ipc.BusyError:
                self.assertEqual(self.drain(), [b"one"])

    def test_take_while_others_look_for_dead_ones(self):
        for _, looking, _ in self.each_stop(self.one_job, lambda _: self.pool().dead()):
            self.jobs.take(0).done()
            self.assertEqual(looking.finish(), [])

    def test_done_against_claim(self):
        for _, ending, _ in self.each_stop(self.taken, lambda job: job.done()):
            self.assertRaises(ipc.BusyError, self.pool().take, 0)
            ending.finish()
            self.assertEqual(self.drain(), [])

    def test_token_of_a_free_job(self):
        """Who gets the token can claim the job at once."""
        for prepare, call in ((self.nothing, lambda _: self.pool().put("one")), (self.taken, lambda job: job.give_back())):
            self.renew()
            tokens, prepared = ipc.MessageQueue(self.name), prepare()
            if tokens.current_messages:
                tokens.receive(0)
            stopped = Call(call, prepared)
            while not tokens.current_messages:
                stopped.step()
            self.jobs.take(0).done()
            stopped.finish()

    def test_put_against_sweep(self):
        """A sweep at any moment of a put, both in turns: the job is there once the put has returned."""
        swept = []
        for requests, putting, _ in self.each_stop(self.nothing, lambda _: self.pool().put("one")):
            swept.append(self.jobs.sweep())
            putting.finish()
            self.assertEqual(self.drain(), [b"one"])
        self.assertEqual("".join(map(str, swept)).strip("0"), "101")     # before each of the two registrations

    def test_sweep_against_put(self):
        """The same, where the sweep stops too, and goes on once the put has made some further requests, or has returned."""
        for first in range(1, 5):
            for further in (1, 2, 3, 100):
                self.renew()
                for sweeps in range(8):
                    putting, sweeping = Call(self.pool().put, "one"), Call(self.pool().sweep)
                    putting.step(first)
                    sweeping.step(sweeps)
                    putting.step(further)
                    sweeping.finish()
                    putting.finish()
                    self.assertEqual(self.drain(), [b"one"], (first, further, sweeps))


class Turns(Pooled):
    """Sessions that go on request by request, in turns that are drawn; some are killed."""

    def work(self, pool):
        """As a worker does. What was worked on is told before the job is over."""
        job = pool.take(0)
        self.worked.append(job.data)
        job.done()

    def play(self, draw, *calls):
        """Plays the calls, each by a session of its own, of root where it says so."""
        self.worked = []
        running = [Call(call, *words) for call, *words in calls]
        left = list(running)
        while left:
            call = draw.choice(left)
            call.kill() if draw.random() < 0.02 else call.step()
            left = [call for call in left if not call.is_over]
        for call in running:
            if call.error is not None and not isinstance(call.error, (ipc.BusyError, ipc.ExistentialError)):
                raise call.error
        return running

    def each_draw(self, count=SCHEDULES):
        for seed in range(count):
            self.renew()
            try:
                yield random.Random(seed)
            except GeneratorExit:
                print(f"in turns of seed {seed}:", file=sys.stderr)
                raise

    def test_put_sweeps_and_works(self):
        for draw in self.each_draw(2 * SCHEDULES):
            keys = [draw.choice((None, "r00t")) for _ in range(4)]
            one, two, three, four = (self.pool(key=key) for key in keys)
            putting = self.play(draw, (one.put, "one"), (two.sweep,), (three.sweep,), (self.work, four))[0]
            if putting.result is not None:
                self.assertIn(b"one", self.worked + self.drain())

    def test_works(self):
        for draw in self.each_draw():
            self.jobs.put("one")
            self.play(draw, *((self.work, self.pool()) for _ in range(3)), (self.pool().dead,))
            found = self.worked + self.drain()
            self.assertIn(b"one", found)

    def test_revives_and_works(self):
        for draw in self.each_draw():
            self.jobs.put("one")
            dead = self.kill_dead()
            self.play(draw, (self.pool().revive, dead), (self.pool().revive, dead), (self.work, self.pool()), (self.pool().sweep,))
            self.assertIn(b"one", self.worked + self.drain())

    def test_buries_and_revives(self):
        for draw in self.each_draw():
            self.jobs.put("one")
            dead = self.kill_dead()
            burying, *_ = self.play(draw, (self.pool().bury, dead), (self.pool().revive, dead), (self.work, self.pool()))
            if not burying.is_killed:
                self.assertIn(b"one", self.worked + self.drain() + [burying.result])


if __name__ == "__main__":
    unittest.main()
