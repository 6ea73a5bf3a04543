"""Asks a server the same again and again, and prints a sum of its answers for each pass, until a file is there:
attach_long.py KIND END WORD.."""
import hashlib
import os
import socket
import subprocess
import sys
import urllib.error
import urllib.request

WIDE, ROWS = "x" * 600, 300
TABLES = f"""drop table if exists t; create table t (a int primary key, b varchar(900));
insert into t values {", ".join(f"({k}, '{k * k}{WIDE}')" for k in range(ROWS))};"""
QUESTIONS = """select count(*), sum(length(b)), min(b), max(a) from t;
select a.a, substr(b.b, 1, 5) from t a join t b on a.a = b.a + 7 where a.a % 5 = 3 order by a.a;
update t set b = concat(b, 'y') where a % 3 = 0; select sum(length(b)) from t;
update t set b = substr(b, 1, length(b) - 1) where a % 3 = 0; select no_such from t;
select b, count(*) from t group by b order by b limit 20;
"""


def fetched(port):
    """A file, a part of it, its head, and one that is not there."""
    for method, path, head in (("GET", "/x", {}), ("GET", "/x", {"Range": "bytes=100-7000"}), ("HEAD", "/x", {}),
                               ("GET", "/none", {})):
        ask = urllib.request.Request(f"http://127.0.0.1:{port}{path}", headers=head, method=method)
        try:
            with urllib.request.urlopen(ask, timeout=60) as answer:
                yield f"{answer.status} {answer.headers['Content-Length']}".encode() + answer.read()
        except urllib.error.HTTPError as error:
            yield f"{error.code}".encode() + error.read()


def kept(port):
    """Of memcached: values that are set, added to, counted, and deleted, by two connections."""
    at = ("127.0.0.1", int(port))
    with socket.create_connection(at, 60) as one, socket.create_connection(at, 60) as other:
        one_file, other_file = one.makefile("rb"), other.makefile("rb")
        for k in range(200):
            one.sendall(b"set k%d 0 0 %d\r\n%s\r\n" % (k, 9 + 13 * k, b"v" * (9 + 13 * k)))
            yield one_file.readline()
            other.sendall(b"append k%d 0 0 3\r\nabc\r\nget k%d\r\nset n 0 0 1\r\n5\r\nincr n 37\r\n" % (k, k))
            other.sendall(b"delete k%d\r\nget k%d\r\n" % (k, k))
            yield from (other_file.readline() for _ in range(8))


def found(port):
    """Of slapd: all entries, one that is changed, and one that comes and goes."""
    at = ["-x", "-H", f"ldap://127.0.0.1:{port}"]
    root = [*at, "-D", "cn=root,dc=x", "-w", "secret"]
    entry = "dn: cn=new,dc=x\nobjectClass: person\ncn: new\nsn: " + WIDE
    search = ["ldapsearch", *at, "-LLL", "-b"]
    for words, text in ((["ldapmodify", *root, "-a"], entry), ([*search, "dc=x", "(sn=*7*)"], ""),
                        ([*search, "cn=new,dc=x"], ""), (["ldapdelete", *root, "cn=new,dc=x"], ""),
                        ([*search, "cn=new,dc=x"], "")):
        done = subprocess.run(words, input=text, capture_output=True, text=True, timeout=60, check=False)
        yield f"{done.returncode} {done.stdout}".encode()


class Session:
    """A client of a database that stays connected, so that one backend has all its questions."""

    def __init__(self, words, mark):
        self.mark = mark
        self.client = subprocess.Popen(words, stdin=subprocess.PIPE, stdout=subprocess.PIPE, stderr=subprocess.DEVNULL)
        self.ask(TABLES)

    def ask(self, text):
        """What is answered up to the mark."""
        self.client.stdin.write((text + self.mark).encode())
        self.client.stdin.flush()
        answer = b""
        while (line := self.client.stdout.readline()) != b"END\n":
            if not line:
                raise SystemExit("the client ended")
            answer += line
        return answer

    def answers(self):
        """Of one pass."""
        yield self.ask(QUESTIONS)


def answers_of(kind, words):
    """The function that asks once."""
    if kind == "postgres":
        session = Session(["psql", "-qAt", "-h", *words], "\\echo END\n")
        with open("backend", "wb") as file:
            file.write(session.ask("select pg_backend_pid();\n"))
        return session.answers
    if kind == "mariadb":
        return Session(["mariadb", "--no-defaults", "-n", "-N", "-f", "-S", *words, "test"], "select 'END';\n").answers
    return lambda: {"http": fetched, "memcached": kept, "ldap": found}[kind](*words)


KIND, END, *WORDS = sys.argv[1:]
ask_once = answers_of(KIND, WORDS)
while not os.path.exists(END):
    print(hashlib.md5(b"".join(ask_once())).hexdigest(), flush=True)
