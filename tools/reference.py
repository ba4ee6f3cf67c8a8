#!/usr/bin/env python3
"""An independent second implementation of `plan`, for comparison: it reads a region's folder, asks the question on
standard input and prints what `plan` should print, but for the choice among several least chains.

    tools/reference.py FOLDER <QUESTION          the answer
    tools/reference.py --check FOLDER ANSWER <QUESTION
        whether ANSWER (a file) is right: the same refusal or `No chain.`, or a plan that is a chain of the same length

It was written from docs/ and shares nothing with the proved programs.
"""
import collections
import os
import sys

FIXED = ["/", "/etc", "/etc/passwd", "/etc/group", "/etc/hosts.equiv", "/etc/rc", "/etc/rc.local", "/usr", "/usr/lib",
         "/usr/lib/crontab", "/usr/lib/aliases"]
TYPES = {b"block", b"char", b"dir", b"fifo", b"file", b"link", b"socket"}
MOST = 4294967294


class Refused(Exception):
    """A refusal: its number, line, text and host."""

    def __init__(self, number, line=0, text=0, host=0):
        super().__init__(number, line, text, host)
        self.number, self.line, self.text, self.host = number, line, text, host

    def __str__(self):
        return f"Refused {self.number}, line {self.line}, text {self.text}, host {self.host}."


def is_name(b):
    return (1 <= len(b) <= 31 and all(0x21 <= c <= 0x7E and c not in b":,/\\" for c in b)
            and b[:1] not in (b"+", b"-", b"#"))


def is_path(b):
    if b == b"/":
        return True
    if len(b) > 63 or b[:1] != b"/":
        return False
    return all(is_name(p) and p not in (b".", b"..") for p in b[1:].split(b"/"))


def number(b):
    if not 1 <= len(b) <= 10 or any(c not in b"0123456789" for c in b):
        return None
    return int(b) if int(b) <= MOST else None


def mode(b):
    if not 1 <= len(b) <= 4 or any(c not in b"01234567" for c in b):
        return None
    return int(b, 8)


def words(line):
    return [w for w in line.replace(b"\t", b" ").split(b" ") if w]


def lines(text):
    parts = text.split(b"\n")
    return parts[:-1] if parts[-1] == b"" else parts


def read(text, kind, host, take, passing):
    """Takes each line; the first that is refused names its line."""
    if len(text) > 8192:
        raise Refused(2, 0, kind, host)
    for n, line in enumerate(lines(text), 1):
        if passing and (line == b"" or line[:1] == b"#"):
            continue
        bad = take(line)
        if bad:
            raise Refused(bad, n, kind, host)


class Host:
    def __init__(self, name):
        self.name = name
        self.accounts, self.groups, self.equiv, self.domain = [], [], [], None
        self.files = [{"path": p.encode(), "stat": None} for p in FIXED]
        self.rhosts = {}
        self.unread = {1, 2, 3, 4, 5}

    def row(self, path):
        for r, x in enumerate(self.files):
            if x["path"] == path:
                return r
        return None

    def home_row(self, account, name):
        home = b"" if account["home"] == b"/" else account["home"]
        r = self.row(home + name)
        return r if r is not None and self.files[r]["stat"] else None

    def first(self, n):
        for i, a in enumerate(self.accounts):
            if a["number"] == n:
                return i
        return None


def hosts_line(hosts):
    def take(line):
        w = words(line.split(b"#")[0])
        if len(w) < 2:
            return 3
        if w[1] in (b"any", b"all"):
            return 10
        if not is_name(w[1]):
            return 5
        if any(h.name == w[1] for h in hosts):
            return 6
        if len(hosts) >= 8:
            return 8
        hosts.append(Host(w[1]))
    return take


def passwd_line(accounts):
    def take(line):
        f = line.split(b":")
        if len(f) != 7:
            return 3
        if f[0] in (b"any", b"all"):
            return 10
        if not is_name(f[0]) or not is_path(f[5]):
            return 5
        if number(f[2]) is None or number(f[3]) is None:
            return 4
        if any(a["name"] == f[0] for a in accounts):
            return 6
        if len(accounts) >= 16:
            return 8
        accounts.append({"name": f[0], "number": number(f[2]), "group": number(f[3]), "home": f[5]})
    return take


def group_line(groups, accounts):
    def take(line):
        f = line.split(b":")
        if len(f) != 4:
            return 3
        if f[0] in (b"any", b"all"):
            return 10
        members = f[3].split(b",") if f[3] else []
        if not is_name(f[0]) or not all(is_name(m) for m in members):
            return 5
        if number(f[2]) is None:
            return 4
        if any(g["name"] == f[0] or g["number"] == number(f[2]) for g in groups):
            return 6
        names = [a["name"] for a in accounts]
        if any(m not in names for m in members):
            return 7
        if len(groups) >= 16:
            return 8
        groups.append({"name": f[0], "number": number(f[2]), "members": {names.index(m) for m in members}})
    return take


def mtree_line(host):
    def take(line):
        w = words(line)
        paths = [i for i, x in enumerate(w) if x == b"." or x[:2] == b"./"]
        keys = collections.defaultdict(list)
        other = False
        for i, x in enumerate(w):
            if i in paths:
                continue
            key, eq, text = x.partition(b"=")
            if eq and key in (b"type", b"uid", b"gid", b"mode"):
                keys[key].append(text)
            else:
                other = True
                if not eq and key in (b"type", b"uid", b"gid", b"mode"):
                    pass
        if paths != [0] or any(len(keys[k]) != 1 for k in (b"type", b"uid", b"gid", b"mode")):
            return 3
        if other or keys[b"type"][0] not in TYPES:
            return 10
        path = w[0][1:] or b"/"
        if not is_path(path):
            return 5
        stat = (keys[b"type"][0] == b"dir", number(keys[b"uid"][0]), number(keys[b"gid"][0]), mode(keys[b"mode"][0]))
        if None in stat:
            return 4
        r = host.row(path)
        if r is not None and host.files[r]["stat"]:
            return 6
        if path != b"/":
            up = host.row(path[:path.rfind(b"/")] or b"/")
            if up is None or not host.files[up]["stat"] or not host.files[up]["stat"][0]:
                return 7
        if r is None:
            if len(host.files) >= 64:
                return 8
            host.files.append({"path": path, "stat": stat})
        else:
            host.files[r]["stat"] = stat
    return take


def trust_line(table, most):
    def take(line):
        w = words(line)
        if not 1 <= len(w) <= 2:
            return 3
        if any(x[:2] == b"+@" or x[:1] == b"-" for x in w):
            return 10
        if any(x != b"+" and not is_name(x) for x in w):
            return 5
        if len(table) >= most:
            return 8
        table.append((w[0], w[1] if len(w) == 2 else None))
    return take


def domain_line(host, hosts):
    def take(line):
        w = words(line)
        if len(w) != 4:
            return 3
        if w[0] != b"domain" or w[2] != b"server":
            return 10
        if not is_name(w[1]) or not is_name(w[3]):
            return 5
        names = [h.name for h in hosts]
        if w[3] not in names:
            return 7
        if host.domain:
            return 8
        host.domain = (w[1], names.index(w[3]))
    return take


def file_bytes(folder, name):
    try:
        with open(os.path.join(folder, name), "rb") as f:
            return f.read(8193)
    except OSError:
        return None


def region(folder):
    hosts = []
    text = file_bytes(folder, "hosts")
    if text is not None:
        read(text, 0, 0, hosts_line(hosts), True)
    for h, host in enumerate(hosts):
        for kind, name in ((1, "passwd"), (2, "group"), (3, "mtree"), (4, "equiv"), (5, "ypconf")):
            text = file_bytes(folder, f"{h}.{name}")
            if text is None:
                continue
            if len(text) > 8192:
                raise Refused(2, 0, kind, h)
            if kind == 2 and 1 in host.unread:
                raise Refused(9, 0, kind, h)
            take = {1: lambda: passwd_line(host.accounts), 2: lambda: group_line(host.groups, host.accounts),
                    3: lambda: mtree_line(host), 4: lambda: trust_line(host.equiv, 16),
                    5: lambda: domain_line(host, hosts)}[kind]()
            read(text, kind, h, take, kind > 2)
            host.unread.discard(kind)
        for a in range(len(host.accounts)):
            text = file_bytes(folder, f"{h}.rhosts.{a}")
            if text is not None:
                table = []
                read(text, 6, h, trust_line(table, 4), True)
                host.rhosts[a] = table
    if not hosts:
        raise Refused(11, 0, 0, 0)
    for h, host in enumerate(hosts):
        if host.unread:
            raise Refused(11, 0, min(host.unread), h)
        for i, a in enumerate(host.accounts):
            if host.home_row(a, b"/.rhosts") is not None and i not in host.rhosts:
                raise Refused(11, 0, 6, h)
    return hosts


ROOT = ("root",)


def live(hosts):
    """Every live privilege, with its printed form."""
    forms = {ROOT: b"Become user named root at any"}
    for h, t in enumerate(hosts):
        at = b" at " + t.name
        forms[("any", h)] = b"Become user named any" + at
        for i, a in enumerate(t.accounts):
            forms[("name", h, i)] = b"Become user named " + a["name"] + at
            if t.first(a["number"]) == i:
                forms[("number", h, i)] = b"Become user number %d (" % a["number"] + a["name"] + b")" + at
        for j, g in enumerate(t.groups):
            forms[("group", h, j)] = b"Become member of group %d (" % g["number"] + g["name"] + b")" + at
        for r, x in enumerate(t.files):
            forms[("write", h, r)] = b"Write file " + x["path"] + at
            forms[("replace", h, r)] = b"Replace file " + x["path"] + at
    return forms


def trusted(line, host, user, own):
    return line[0] in (b"+", host) and (user == own if line[1] is None else line[1] in (b"+", user))


def grants(hosts, g):
    """The privileges that grant g."""
    if g == ROOT:
        return {("name", h, i) for h, t in enumerate(hosts) for i, a in enumerate(t.accounts) if a["name"] == b"root"}
    h, t = g[1], hosts[g[1]]
    out = set()

    def by_number(n):
        if t.first(n) is not None:
            out.add(("number", h, t.first(n)))

    def by_map(name):
        if t.domain:
            r = hosts[t.domain[1]].row(b"/var/yp/" + t.domain[0] + name)
            if r is not None:
                out.add(("replace", t.domain[1], r))

    if g[0] == "replace":
        path = t.files[g[2]]["path"]
        if path != b"/":
            out.add(("replace", h, t.row(path[:path.rfind(b"/")] or b"/")))
        out.add(("write", h, g[2]))
    elif g[0] == "write":
        stat = t.files[g[2]]["stat"]
        if stat:
            by_number(stat[1])
            if stat[3] & 0o020:
                out |= {("group", h, j) for j, b in enumerate(t.groups) if b["number"] == stat[2]}
            if stat[3] & 0o002:
                out.add(("any", h))
    elif g[0] == "name":
        by_number(t.accounts[g[2]]["number"])
    elif g[0] == "number":
        i, a = g[2], t.accounts[g[2]]
        out.add(("name", h, i))
        out.add(("replace", h, 2))
        by_map(b"/passwd.byuid.pag")
        r = t.home_row(a, b"/.rhosts")
        owned = r is not None and t.files[r]["stat"][1] == a["number"]
        if r is not None:
            out.add(("write", h, r))
        for name in (b"/.cshrc", b"/.login", b"/.profile"):
            s = t.home_row(a, name)
            if s is not None:
                out.add(("replace", h, s))
        out |= {("replace", h, r) for r in ((9, 10, 5, 6) if a["number"] == 0 else (4,))}
        for n, s in enumerate(hosts):
            for j, b in enumerate(s.accounts):
                if a["number"] != 0 and any(trusted(x, s.name, b["name"], a["name"]) for x in t.equiv):
                    out.add(("name", n, j))
                elif owned and any(trusted(x, s.name, b["name"], a["name"]) for x in t.rhosts.get(i, [])):
                    out.add(("name", n, j))
    elif g[0] == "group":
        b = t.groups[g[2]]
        out.add(("replace", h, 3))
        by_map(b"/group.bygid.pag")
        for i, a in enumerate(t.accounts):
            if i in b["members"] or a["group"] == b["number"]:
                by_number(a["number"])
    else:
        out |= {("number", h, i) for i, a in enumerate(t.accounts) if t.first(a["number"]) == i}
    return out


def shortest(hosts, start, goal):
    """The steps of a least chain, found from the goal back, and the next privilege from each; None where there is none."""
    after = {goal: None}
    queue = collections.deque([goal])
    while queue:
        g = queue.popleft()
        if g == start:
            chain = [g]
            while after[chain[-1]] is not None:
                chain.append(after[chain[-1]])
            return chain
        for p in grants(hosts, g):
            if p not in after:
                after[p] = g
                queue.append(p)
    return None


def answer(folder, question):
    hosts = region(folder)
    forms = live(hosts)
    by_form = {f: p for p, f in forms.items()}
    assert len(by_form) == len(forms), "two privileges print alike"
    asked = (lines(question) + [b"", b""])[:2]
    if asked[0] not in by_form or asked[1] not in by_form:
        raise Refused(12, 0, 7, 0)
    return hosts, forms, by_form, shortest(hosts, by_form[asked[0]], by_form[asked[1]])


def printed(folder, question):
    try:
        hosts, forms, _, chain = answer(folder, question)
    except Refused as e:
        return f"{e}\n".encode()
    if chain is None:
        return b"No chain.\n"
    return b"".join(b"%d. %s\n" % (k, forms[p]) for k, p in enumerate(chain, 1))


def right(folder, question, said):
    """Whether what was said is a right answer."""
    try:
        hosts, forms, by_form, chain = answer(folder, question)
    except Refused as e:
        return said == f"{e}\n".encode()
    if chain is None:
        return said == b"No chain.\n"
    rows = lines(said)
    if len(rows) != len(chain) or not said.endswith(b"\n"):
        return False
    plan = []
    for k, row in enumerate(rows, 1):
        front = b"%d. " % k
        if not row.startswith(front) or row[len(front):] not in by_form:
            return False
        plan.append(by_form[row[len(front):]])
    return plan[0] == chain[0] and plan[-1] == chain[-1] and all(p in grants(hosts, g) for p, g in zip(plan, plan[1:]))


if __name__ == "__main__":
    if sys.argv[1:2] == ["--check"]:
        with open(sys.argv[3], "rb") as f:
            ok = right(sys.argv[2], sys.stdin.buffer.read(), f.read())
        print("right" if ok else "wrong")
        sys.exit(0 if ok else 1)
    sys.stdout.buffer.write(printed(sys.argv[1] if len(sys.argv) > 1 else ".", sys.stdin.buffer.read()))
