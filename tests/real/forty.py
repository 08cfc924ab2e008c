"""A month of forty loans: its lines, its files, and the replies to them, worked out by hand."""
HEADER = "key,do,loan,day,amount,line"
TERMS = "200000.00 6000 250 1199.10 360 2024-02 15 500 2 0.00"
TYPES = {1: "AA", 2: "SA", 0: "SS"}
CLOSED = [("close 2023-12", " lines 40 interest 0.00 principal 0.00"),
          ("close 2024-01", " lines 40 interest 0.00 principal 0.00"),
          ("close 2024-02", " lines 40 interest 38333.20 principal 7964.00"),
          ("close 2024-03", " lines 40 interest 34465.32 principal 6603.30"),
          ("remit 2023-12", " net 0.00"), ("remit 2024-01", " net 0.00"),
          ("remit 2024-02", " net 46297.20"), ("remit 2024-03", " net 41068.62")]
CUSTODY = "custodial T 0.00 P 0.00 suspense 0.00 escrow 0.00 escrow-advance 0.00 held 0.00 pi-advance {}"
UNPAID = ("books {} 2024-04-01 upb 199800.90 next 2024-03 escrow 0.00 suspense 0.00 late 59.96 interest 1000.00"
          " fee 41.67 principal 199.10 charges 0.00 pay 1199.10")

# What the report of March and the custodial line of a loan that did not pay in March add up to where it goes, one of
# each type; and what those of the other 39 loans do. Both together are 34465.32, 6603.30 and 6344.52.
HANDED_OVER = {31: [("interest 0.00 principal 0.00", "0.00"), ("interest 34465.32 principal 6603.30", "6344.52")],
               32: [("interest 957.37 principal 0.00", "957.37"), ("interest 33507.95 principal 6603.30", "5387.15")],
               33: [("interest 957.37 principal 200.10", "1157.47"),
                    ("interest 33507.95 principal 6403.20", "5187.05")]}


def command(number, words, found=""):
    """A command under the key of its number, and the reply to it."""
    return f"k{number} {words}", f"ok {number}{found}"


def boarding():
    """The day on which the loans are taken on, and these."""
    loans = [command(id + 1, f"board {id} 2023-12-15 {TERMS} {TYPES[id % 3]}") for id in range(1, 41)]
    return [command(1, "day 2024-02-01"), *loans]


def payments(before, last, day):
    """Installments of the loans from 1 to `last`; so many commands come before them."""
    return [command(before + id, f"pay {id} {day} 1199.10") for id in range(1, last + 1)]


FEBRUARY = payments(41, 40, "2024-02-01")
IN_MARCH = [command(82, "day 2024-03-05")]
MARCH = payments(82, 30, "2024-03-05")


def end():
    """Four months are closed and remitted, and the ten loans that did not pay in March owe a late charge."""
    closed = [command(114 + i, words, found) for i, (words, found) in enumerate(CLOSED)]
    unpaid = [(f"? books {id}", UNPAID.format(id)) for id in range(31, 41)]
    return [command(113, "day 2024-04-01"), *closed, ("? custodial", CUSTODY.format("6344.52")), *unpaid]


def by_lines():
    """All lines, in which each payment comes twice."""
    return boarding() + FEBRUARY * 2 + IN_MARCH + MARCH * 2 + end()


def texts(pairs):
    """The lines and the replies of such pairs."""
    lines, replies = ("".join(it + "\n" for it in side).encode() for side in zip(*pairs))
    return lines, replies


def file_of(pairs):
    """The file of these payments, and the replies to it."""
    lines, replies = texts(pairs)
    rows = [HEADER, *(line.replace(" ", ",") + "," for line in lines.decode().splitlines())]
    return "".join(row + "\n" for row in rows).encode(), replies
