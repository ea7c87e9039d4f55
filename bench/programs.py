"""The programs of bench/run and bench/elide: clean, each of another shape, in two sizes."""
from pathlib import Path

HERE = Path(__file__).resolve().parent

TREE = """cilk 1
mem t 131072
mem x
func main z
  call sum 1
  read r t[1]
  write x r
end
func sum n
  let inner = n < 65536
  if inner
    let a = n * 2
    let b = a + 1
    spawn sum a
    call sum b
    sync
    read l t[a]
    read r t[b]
    let s = l + r
    write t[n] s
  else
    write t[n] n
  end
end
"""

QUARTERS = """cilk 1
mem a 65536
mem b 65536
mem c 65536
reducer total sum
func main z
  put total 0
  call quarter 1
  get r total
  write c[0] r
end
func quarter q
  let inner = q < 65536
  if inner
    let k = q * 4
    spawn quarter k
    let k = k + 1
    spawn quarter k
    let k = k + 1
    spawn quarter k
    let k = k + 1
    call quarter k
    sync
  else
    read x a[q]
    read y b[q]
    let z = x * y
    let z = z + q
    write c[q] z
    update total z
  end
end
"""

ROWS = """cilk 2
mem s
mem row 100
reducer d digits
func main z
  pfor i 1600 line
  read r s
  write s r
end
func line i
  pfor j 100 cell
  update d i
end
func cell j
  bump s j
  bump row[j] 1
end
"""


# A smaller one of the same shape has these words in place of those.
SMALLER = (("fib 25", "fib 20"), ("131072", "8192"), ("65536", "4096"), ("pfor i 1600", "pfor i 160"))


def programs():
    """The texts by name: 971,145, 720,893, 546,137 and 808,005 requests."""
    fib = (HERE.parent / "examples/fib.cilk").read_text().replace("call fib 10", "call fib 25")
    return {"fib": fib, "tree": TREE, "quarters": QUARTERS, "rows": ROWS}


def smaller(text):
    for large, small in SMALLER:
        text = text.replace(large, small)
    return text


def written(folder, names, shorten=False):
    """Writes those of these names, or all where none is named, into the folder, and gives their files."""
    files = {}
    for name, text in programs().items():
        if name in names or not names:
            files[name] = Path(folder, f"{name}.cilk")
            files[name].write_text(smaller(text) if shorten else text)
    return files
