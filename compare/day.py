"""A day of its own, written from the rules alone, against the program `daybook`.

Makes scripts of random calls, runs both on them and compares what they write:

    compare/day.py PROGRAM [SCRIPTS [SEED [DAYS [CALLS]]]]
"""

import random
import subprocess
import sys

STEMS = {"plan": ("847777", "947777"), "omnibus": ("885555", "995555")}
ALL_STEMS = [stem for stems in STEMS.values() for stem in stems]
CODE = set(b"ABCDEFGHIJKLMNOPQRSTUVWXYZ0123456789")
DIGITS = set(b"0123456789")
LARGEST = 499


def is_code(field, width):
    return len(field) == width and all(b in CODE for b in field)


def number(field):
    return int(field) if field and all(b in DIGITS for b in field) else None


def is_security(field):
    text = field.rstrip(b" ")
    return len(field) == 6 and text != b"" and all(b in CODE for b in text)


def is_date(date):
    year, month, day = date // 10000, date // 100 % 100, date % 100
    leap = year % 4 == 0 and (year % 100 != 0 or year % 400 == 0)
    days = [31, 29 if leap else 28, 31, 30, 31, 30, 31, 31, 30, 31, 30, 31]
    return 1990 <= year <= 2099 and 1 <= month <= 12 and 1 <= day <= days[month - 1]


def is_clock(clock):
    return clock // 10000 < 24 and clock // 100 % 100 < 60 and clock % 100 < 60


def investor(account):
    """None for no account, else house, foreign or domestic."""
    if len(account) != 7 or number(account) is None:
        return None
    text = account.decode()
    if text[:6] in ALL_STEMS:
        return "house"
    return "foreign" if text[:2] in ("94", "95", "99") else "domestic"


def split(quantity, shares, amount):
    if quantity == 0 or shares == 0 or amount % shares:
        return [(0, 0), (0, 0)]
    price, rest = divmod(amount // shares, quantity)
    return [(quantity - rest, price), (rest, price + 1) if rest else (0, 0)]


def pieces(runs, cut):
    out = []
    for quantity, price in runs:
        while cut and quantity > LARGEST:
            out.append((LARGEST, price))
            quantity -= LARGEST
        if quantity:
            out.append((quantity, price))
    return out


class Refused(Exception):
    pass


class Day:
    def __init__(self, family, broker, date, first, capacity):
        self.family, self.capacity = family, capacity
        self.good = is_code(broker, 4) and is_date(date) and first <= 99999999
        self.broker, self.date, self.next = broker, b"%08d" % date, first
        self.groups, self.totals, self.rows = [], [], []

    # figures
    def unit(self, kind, u):
        return u if kind == 0 else 1

    def shares(self, row):
        return row["quantity"] * self.unit(row["kind"], self.groups[row["group"]]["u"])

    def open(self, n):
        mine = [row for row in self.rows if row["group"] == n]
        told = [total for total in self.totals if total["group"] == n]
        shares = sum(t["shares"] for t in told) - sum(self.shares(r) for r in mine)
        cents = sum(t["cents"] for t in told) - sum(self.shares(r) * r["price"] for r in mine)
        return shares, cents

    def state(self, n):
        if self.groups[n]["retained"]:
            return "retained"
        return "complete" if self.open(n) == (0, 0) else "unfinished"

    def sealed(self, account):
        return any(g["retained"] and g["name"][0] == account for g in self.groups)

    def find(self, name):
        return next((n for n, g in enumerate(self.groups) if g["name"] == name), None)

    def own(self, account):
        return len(account) == 7 and number(account) is not None and account[:6].decode() in STEMS[self.family]

    def sides(self):
        return (b"B",) if self.family == "plan" else (b"B", b"S")

    # calls
    def total(self, account, security, side, kind, u, quantity, amount, of_broker=True, of_date=True):
        if not self.good:
            return 3
        if not of_broker:
            return 5
        if not self.own(account):
            return 6
        if not is_security(security) or security == b"ZZZZZZ":
            return 7
        if side not in self.sides():
            return 8
        if kind not in (0, 2):
            return 9
        if not of_date:
            return 10
        if self.sealed(account):
            return 12
        if u not in (1, 10, 100, 1000) or quantity is None or amount is None:
            return 28
        if not 1 <= quantity <= 99999999 or amount % 100 or not 1 <= amount // 100 <= 99999999999999:
            return 28
        n = self.find((account, security, side))
        if n is not None and self.groups[n]["u"] != u:
            return 28
        told = [t for t in self.totals if t["group"] == n]
        if any(t["kind"] == kind for t in told):
            return 29
        shares, cents = quantity * self.unit(kind, u), amount // 100
        if sum(t["shares"] for t in told) + shares > 99999999 or sum(t["cents"] for t in told) + cents > 99999999999999:
            return 30
        if n is None:
            if len(self.groups) == 64:
                return 31
            n = len(self.groups)
            self.groups.append({"name": (account, security, side), "u": u, "retained": False})
        self.totals.append({"group": n, "kind": kind, "quantity": quantity, "shares": shares, "cents": cents})
        return ("accepted", n)

    def cai(self, u, row):
        if len(row) != 80:
            return 1
        kind = {b"0": 0, b"2": 2}.get(row[18:19])
        return self.total(row[4:11], row[11:17], row[17:18], kind, u, number(row[27:35]), number(row[35:51]),
                          is_code(row[:4], 4) and row[:4] == self.broker, row[19:27] == self.date)

    def code_at(self):
        return 68 if self.family == "plan" else 65

    def line(self, clock, line, space):
        """The answer, and the bytes that are written."""
        if len(line) != 200:
            return 1, b""
        if space < 200:
            return 2, b""
        try:
            replies = self.judge(clock, line, space)
        except Refused as refused:
            return refused.args[0], self.repeat(line, refused.args[0])
        return ("accepted", len(replies)), b"".join(replies)

    def answered(self, trade, price, rq, ra, tq, ta, error):
        by_type = b"" if self.family == "plan" else b"%08d%016d" % (tq, ta * 100)
        return b"%08d%09d%08d%016d" % (trade, price * 100, rq, ra * 100) + by_type + b"%02d" % error

    def repeat(self, line, error):
        return (line[: self.code_at()] + self.answered(0, 0, 0, 0, 0, 0, error)).ljust(200)

    def refuse_if(self, *grounds):
        for ground, applies in grounds:
            if applies:
                raise Refused(ground)

    def judge(self, clock, line, space):
        code = line[self.code_at() - 1 : self.code_at()]
        retention = self.family == "omnibus" and code == b"1" and line[11:17] == b"ZZZZZZ"
        account, security, side, kind = line[4:11], line[11:17], line[17:18], line[18:19]
        self.refuse_if((3, not self.good), (4, code not in (b"1", b"2")), (5, line[:4] != self.broker), (6, not self.own(account)))
        if not retention:
            self.refuse_if((7, not is_security(security)), (8, side not in self.sides()), (9, kind not in (b"0", b"2")))
        ends = 190000 if retention else 180000
        self.refuse_if((10, line[19:27] != self.date), (11, not is_clock(clock) or not 150000 <= clock < ends), (12, self.sealed(account)))
        if retention:
            return self.retain(line, account, space)
        n = self.find((account, security, side))
        self.refuse_if((13, n is None))
        if code == b"2":
            left = [r for r in self.rows if (r["group"], r["kind"]) != (n, int(kind))]
            self.refuse_if((25, len(left) == len(self.rows)))
            self.rows = left
            return [self.repeat(line, 0)]
        return self.file(line, n, account, int(kind), space)

    def retain(self, line, account, space):
        self.refuse_if((15, line[32:39] != account), (26, account[:6] != b"995555"))
        taken = [n for n, g in enumerate(self.groups) if g["name"][0] == account and self.state(n) == "unfinished"]
        told = [t for t in self.totals if t["group"] in taken]
        self.refuse_if((27, not taken), (24, 200 * len(told) > space))
        self.rows = [r for r in self.rows if r["group"] not in taken]
        replies = []
        for t in told:
            _, security, side = self.groups[t["group"]]["name"]
            begin = self.broker + account + security + side + b"%d" % t["kind"] + self.date + b" " * 5
            filed = account + b"0" * 8 + b"0" * 16 + b"0" + b"1"
            replies.append((begin + filed + self.answered(0, 0, t["quantity"], t["cents"], 0, 0, 0)).ljust(200))
        for n in taken:
            self.groups[n]["retained"] = True
        return replies

    def file(self, line, n, account, kind, space):
        plan, u = self.family == "plan", self.groups[n]["u"]
        order = line[27:32]
        broker, rest = (line[32:36], line[36:]) if plan else (b"    ", line[32:])
        new_account, quantity, amount = rest[:7], number(rest[7:15]), number(rest[15:31])
        order_type = b"0" if plan else rest[31:32]
        each = self.unit(kind, u)
        self.refuse_if((14, not is_code(order, 5) or any(r["order"] == order for r in self.rows)))
        wanted = "foreign" if account[:6].decode() == STEMS[self.family][1] else "domestic"
        self.refuse_if((15, investor(new_account) != wanted or not (not plan or is_code(broker, 4))))
        self.refuse_if((16, order_type not in (b"0", b"1", b"2", b"3", b"4", b"5", b"6")))
        most = (LARGEST if plan else 10000) if kind == 0 else min(999, u - 1)
        self.refuse_if((17, quantity is None or not 1 <= quantity <= most))
        self.refuse_if((18, amount is None or amount % 100 or amount < 100 or kind == 0 and amount // 100 % u))
        cents = amount // 100
        runs = split(quantity, each, cents)
        self.refuse_if((19, any(q and not 1 <= p <= 9999999 for q, p in runs)))
        made = pieces(runs, not plan and kind == 0)
        shares, left = self.open(n)
        self.refuse_if((20, quantity * each > shares), (21, cents > left), (22, self.next + len(made) > 100000000))
        self.refuse_if((23, len(self.rows) + len(made) > self.capacity), (24, 200 * len(made) > space))
        completes = (shares, left) == (quantity * each, cents)
        alike = [r for r in self.rows if (r["group"], r["kind"]) == (n, kind)]
        typed = [r for r in alike if r["type"] == int(order_type)]
        sums = lambda rows: [sum(r["quantity"] for r in rows), sum(self.shares(r) * r["price"] for r in rows)]
        (rq, ra), (tq, ta) = sums(alike), sums(typed)
        replies = []
        for i, (q, price) in enumerate(made):
            worth = q * each * price
            rq, ra, tq, ta = rq + q, ra + worth, tq + q, ta + worth
            row = {"group": n, "kind": kind, "type": int(order_type), "order": order, "broker": broker, "account": new_account,
                   "quantity": q, "price": price, "trade": self.next, "rq": rq, "ra": ra, "tq": 0 if plan else tq, "ta": 0 if plan else ta}
            self.rows.append(row)
            filed = line[:43] if plan else line[:39]
            begin = filed + b"%08d%016d" % (q, worth * 100) + (b"" if plan else order_type) + b"1"
            error = 0 if completes and i == len(made) - 1 else 79
            replies.append((begin + self.answered(self.next, price, rq, ra, tq, ta, error)).ljust(200))
            self.next += 1
        return replies

    def row(self, i, space):
        if space < 150:
            return 2, b""
        if i >= len(self.rows):
            return 32, b""
        r = self.rows[i]
        account, security, side = self.groups[r["group"]]["name"]
        out = self.broker + account + security + side + b"%d" % r["kind"] + self.date + r["order"] + b"%08d" % r["trade"]
        if self.family == "plan":
            out += r["broker"] + r["account"] + b"%08d%09d" % (r["quantity"], r["price"] * 100)
        else:
            out += r["account"] + b"%08d%09d%d" % (r["quantity"], r["price"] * 100, r["type"])
        out += b"%08d%016d" % (r["rq"], r["ra"] * 100)
        if self.family == "omnibus":
            out += b"%08d%016d" % (r["tq"], r["ta"] * 100)
        return None, out.ljust(150)

    def verdict(self):
        if not self.groups:
            return 0
        return 1 if any(self.state(n) == "unfinished" for n in range(len(self.groups))) else 2

    def entries(self):
        out = []
        for r in self.rows:
            out.append("entry %d %d %d %s %s %d %d %d %d %d %d %d %d" % (
                r["group"], r["kind"], 0 if self.family == "plan" else r["type"], r["order"].hex(), r["broker"].hex(), int(r["account"]),
                r["quantity"], r["price"], r["trade"], r["rq"], r["ra"], r["tq"], r["ta"]))
        return out


def told(name, answer):
    return f"{name} accepted {answer[1]}" if isinstance(answer, tuple) else f"{name} refused {answer}"


def shown(written, space):
    held = written + b"#" * (space - len(written))
    return "buffer " + held.hex() if held else "buffer"


def word(field):
    text = field.replace(b" ", b"_")
    plain = b"_" not in field and text and all(33 <= b <= 126 for b in text) and not text.startswith(b"x:")
    return text.decode() if plain and random.random() < 0.8 else "x:" + field.hex()


def vary(good, *others):
    """Mostly what is good, sometimes something else."""
    return good if random.random() < 0.93 else random.choice(others)


class Transfer:
    """Lines handed on and, of these, lines refused."""

    def __init__(self):
        self.handed = self.refused = 0

    def line(self, day, clock, line, space):
        if self.refused > 50 or self.handed >= 8000:
            return 33, b""
        answer, written = day.line(clock, line, space)
        self.handed += 1
        self.refused += not isinstance(answer, tuple)
        return answer, written


class Script:
    def __init__(self):
        self.calls, self.answers, self.transfer = [], [], None

    def say(self, call, *answers):
        self.calls.append(call)
        self.answers += answers

    def day(self, length):
        family = random.choice(("plan", "omnibus"))
        broker, date, first = vary(b"585P", b"58", b"585p"), vary(20240102, 20230229, 0), vary(random.choice((1, 90000000)), 99999990, 100000000)
        ledger, size = random.choice((("table", random.choice((3, 40, 4000))), ("blocks", random.choice((511, 2000, 90000)))))
        day = Day(family, broker, date, first, size if ledger == "table" else min(size // 512, 1142) * 7)
        self.say(f"open {family} {word(broker)} {date} {first} {ledger} {size}", "open")
        self.transfer = None
        accounts = [stem.encode() + b"1" for stem in STEMS[family]]
        groups = [(random.choice(accounts), random.choice((b"2330  ", b"1101  ", b"00878 ")), random.choice(day.sides()), random.choice((1, 10, 100, 1000))) for _ in range(4)]
        for _ in range(length):
            self.call(day, random.choice(groups))

    def call(self, day, group):
        account, security, side, u = group
        account = vary(account, b"8477770", b"12", b"9955551", b"885555a")
        security, side = vary(security, b"ZZZZZZ", b"2317  ", b" 2330 ", b"23"), vary(side, b"S", b"B", b"C", b"")
        chance = random.random()
        if chance < 0.01:
            self.transfer = Transfer()
            self.say("begin", "begin")
        elif chance < 0.013:
            self.transfer = None
            self.say("end", "end")
        elif chance < 0.12:
            kind, size = vary(random.choice((0, 2)), 1, 255), vary(u, 50, 10)
            quantity = vary(random.randint(1, 3000), 0, 99999999, 100000000)
            amount = vary(quantity * random.randint(1, 90) * size * 100, 0, 150, 10**16)
            self.say(f"total {word(account)} {word(security)} {word(side)} {kind} {size} {quantity} {amount}",
                     told("total", day.total(account, security, side, kind, size, quantity, amount)))
        elif chance < 0.2:
            row = vary(b"585P", b"586P") + account + security + side + vary(random.choice((b"0", b"2")), b"1") + vary(b"20240102", b"20240103")
            row += b"%08d%016d" % (random.randint(1, 3000), vary(random.randint(1, 10**8) * 100, 33)) + b" " * 29
            self.say(f"cai {u} {word(row)}", told("cai", day.cai(u, row)))
        elif chance < 0.8:
            self.line(day, account, security, side, u)
        elif chance < 0.88:
            n = day.find((account, security, side))
            known = n is not None and security != b"ZZZZZZ"
            self.say(f"figures {word(account)} {word(security)} {word(side)}", "figures %d %d %s" % (*day.open(n), day.state(n)) if known else "figures none")
        elif chance < 0.92:
            self.say("verdict", f"verdict {day.verdict()}")
        elif chance < 0.97:
            i, space = random.randint(0, len(day.rows)), vary(random.choice((150, 163)), 149, 0)
            ground, written = day.row(i, space)
            self.say(f"row {i} {space}", "row written" if ground is None else f"row refused {ground}", shown(written, space))
        else:
            self.say("rows", f"rows {len(day.rows)} {day.capacity}", *day.entries())

    def line(self, day, account, security, side, u):
        plan = day.family == "plan"
        kind = random.choice((0, 2))
        n = day.find((account, security, side))
        shares, left = day.open(n) if n is not None else (10, 1000)
        each = u if kind == 0 else 1
        quantity = max(1, min(random.randint(1, 600 if random.random() < 0.9 else 10100), shares // each)) if random.random() < 0.9 else random.randint(0, 10100)
        cents = left if random.random() < 0.3 else min(left, quantity * each * random.randint(1, 60) + random.choice((0, 0, each, 7 * each, 1)))
        cents = vary(cents, left + 1, left + 1000)
        foreign = account[:6].decode() == STEMS[day.family][1]
        new = vary(b"9900019" if foreign else b"0123456", b"0123456", b"9477771", b"01234 6")
        if random.random() < 0.04 and not plan:
            security, new, kind = b"ZZZZZZ", vary(account, b"9955552"), 0
        order = vary(b"%c%04d" % (random.choice(b"ABC"), random.randint(0, 3000)), b"a0001", b"A000 ")
        line = vary(b"585P", b"586P") + account + security + side + vary(b"%d" % kind, b"1") + vary(b"20240102", b"20240103") + order
        line += vary(b"9801", b"98 1") if plan else b""
        line += new + vary(b"%08d" % quantity, b"0000000x") + vary(b"%014d00" % cents, b"%014d50" % cents, b"x" * 16)
        line += b"" if plan else vary(b"%d" % random.randint(0, 6), b"7")
        line += vary(random.choice((b"1", b"1", b"1", b"2")), b"3")
        line = vary(line.ljust(200), line.ljust(199), line.ljust(200, b"?"))
        clock, space = vary(random.choice((150000, 160000, 175959)), 145959, 180000, 185959, 190000, 156060), vary(random.choice((200, 1000, 4500)), 199, 0)
        answer, written = (self.transfer.line(day, clock, line, space) if self.transfer else day.line(clock, line, space))
        self.say(f"line {clock} {space} {word(line)}", told("line", answer), shown(written, space))


def main():
    program = sys.argv[1]
    scripts, seed, days, length = (int(given) for given in (sys.argv[2:] + ["20", "1", "4", "150"][len(sys.argv) - 2 :]))
    calls = 0
    for n in range(scripts):
        random.seed(seed * 1000 + n)
        script = Script()
        for _ in range(days):
            script.day(length)
        text = "".join(call + "\n" for call in script.calls)
        out = subprocess.run([program], input=text, capture_output=True, text=True, check=True).stdout.split("\n")
        calls += len(script.calls)
        for i, (expected, written) in enumerate(zip(script.answers + [""], out)):
            if expected != written:
                print(f"script {n}, output line {i + 1}:\n  expected {expected[:900]}\n  written  {written[:900]}")
                return 1
        if len(out) != len(script.answers) + 1:
            print(f"script {n}: {len(out) - 1} lines written, {len(script.answers)} expected")
            return 1
    print(f"{scripts} scripts, {calls} calls: alike")
    return 0


if __name__ == "__main__":
    sys.exit(main())
