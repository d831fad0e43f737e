"""Programs of the example language, with what they must print, worked out by hand; programs that trap, with their stack
traces; and wrong ones, with their messages.

The imports are `print(number)` and `show(address)`, which prints a text. The last line is what `main` returns.
"""

PRIMES = """
# Prints the primes below 30, from a sieve in memory, and returns how many there are.
import print(number)
global found = 0

fn mark(prime)
    var multiple = prime * prime
    while multiple < 30
        do store(64 + 4 * multiple, 1)
        set multiple = multiple + prime
    end
end

fn main()
    var number = 2
    while number < 30
        if load(64 + 4 * number) = 0
            do print(number)
            do mark(number)
            set found = found + 1
        end
        set number = number + 1
    end
    return found
end
"""

DISPATCH = """
# Calls through the table, with 0, 1, 2 and 8 arguments.
import print(number)
table seven, twice, minus, last, twice
fn seven()
    return 7
end
fn twice(x)
    return 2 * x
end
fn minus(x, y)
    return x - y
end
fn last(a, b, c, d, e, f, g, h)
    return h
end
fn main()
    do print(table(0))
    do print(table(21, 1))
    do print(table(100, 1, 1 + 1))
    do print(seven() + table(4, 4) * (3 - -1) % 10)
    return last(1, 2, 3, 4, 5, 6, 7, 8)
end
"""

EXCEPTIONS = """
# Exceptions of two tags, caught where they belong, also from an inner function.
import print(number)
import show(address)
text outer = "outer"
text inner = "inner: "
tag small
tag large

fn check(n)
    if n < 10
        throw small n
    else
        if n > 99
            throw large n
        end
    end
    return n
end

fn guarded(n)
    try
        return check(n)
    catch small value
        do show(inner)
        return -value
    end
end

fn main()
    var sum = 0
    try
        set sum = sum + guarded(50)
        set sum = sum + guarded(3)
        set sum = sum + guarded(100)
        set sum = sum + 1000
    catch small value
        do print(0)
    catch large value
        do show(outer)
        do print(value)
    end
    return sum
end
"""

START = """
# The start function runs before `main`.
import show(address)
memory 3
global ready = 5
text hello = "hello"
text bye = ""
start begin
fn begin()
    set ready = ready + load(hello)
end
fn main()
    do show(hello)
    do show(bye)
    do store(196604, 5)
    return ready + load(196604) & 6 | 1 = 1 & 2 > 1
end
"""

PLACES = """
# Functions move into the table, and a text into memory, while the program runs.
import show(address)
text first = "first"
packed later = "packed text"
packed latest = "more"
table one, one
fn one()
    return 1
end
fn two()
    return 2
end
fn unpacked(address)
    unpack later address + 4
    do store(address, 11)
    do show(address)
    unpack latest address + 4
    do store(address, 6)
    return address
end
fn main()
    do show(first)
    do show(unpacked(1000))
    var before = 10 * table(0) + table(1)
    place two 1
    place main 0
    place two before - 11
    return before * 100 + 10 * table(0) + table(1)
end
"""

TRAP = """
# Divides by zero, two calls below `main`.
import print(number)
fn divide(a, b)
    return a / b
end
fn average(sum, count)
    return divide(sum, count)
end
fn main()
    do print(average(6, 2))
    return average(6, 0)
end
"""

# Programs that trap, and the functions of the stack trace, from the innermost.
TRAPS = {"trap": (TRAP, ["divide", "average", "main"])}

# A program, and the names of its functions and locals as wasm-objdump shows them.
NAMES = (TRAP, ["func[0] <print>", "func[1] <divide>", "func[2] <average>", "func[3] <main>", "func[1] local[0] <a>",
                "func[1] local[1] <b>", "func[2] local[0] <sum>", "func[2] local[1] <count>"])

# Programs and what they print.
PROGRAMS = {
    "primes": (PRIMES, ["2", "3", "5", "7", "11", "13", "17", "19", "23", "29", "10"]),
    "dispatch": (DISPATCH, ["7", "42", "99", "9", "8"]),
    "exceptions": (EXCEPTIONS, ["inner: ", "outer", "100", "47"]),
    "start": (START, ["hello", "", "7"]),
    "places": (PLACES, ["first", "moreed", "moreed", "1122"]),
}

# Wrong programs and their messages.
REFUSED = {
    "fn main(": "line 1: a parenthesis isn't closed",
    "fn main()\n  return 1": "line 0: a block isn't closed",
    "fn main()\n  return\nend": "line 2: the expression ends where an operand is wanted",
    "fn main()\n  return f(1)\nend": "line 2: unknown name",
    "fn f(a)\nend\nfn main()\n  return f()\nend": "line 4: wrong number of arguments",
    "fn f(a, b, c, d, e, f, g, h, i)\nend": "line 1: a function has at most 8 parameters",
    "do 1": "line 1: a statement stands outside of a function",
    "fn main()\nglobal g = 1\nend": "line 2: a declaration stands inside of a function",
    "end": "line 1: no such block is open",
    "global big = 2147483648": "line 1: a number is past 2147483647",
    'text open = "abc': "line 1: a text isn't closed",
    "fn main()\n  set f = 1\nend": "line 2: only variables and globals can be set",
    "fn main()\n  return 1 2\nend": "line 2: something has no place there",
    "start main": "line 0: unknown name",
    "fn main()\n  place f 0\nend": "line 2: unknown name",
    "fn main()\n  packed f = \"\"\nend": "line 2: a declaration stands inside of a function",
}
