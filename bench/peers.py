"""Times a peer on the filters that it shares with us: peers.py SciPy|OpenCV SCAN_FILE ROUNDS

The first line printed is the peer's version; each other one is a row's name and its number, with a tab
between them. Exit status 3: the peer is not installed.
"""

import pathlib
import sys
import time

sys.path.insert(0, str(pathlib.Path(__file__).resolve().parents[1] / "hosts" / "python"))


def scipy_filters():
    import scipy
    from scipy.ndimage import grey_opening, median_filter
    return scipy.__version__, {
        "median": lambda scan, window: median_filter(scan, window, mode="nearest"),
        "opening": lambda scan, window: grey_opening(scan, window, mode="nearest"),
    }


def opencv_filters():
    import cv2
    import numpy
    cv2.setNumThreads(1)

    def median(scan, window):
        # A square window on one row repeats each sample as often as all others.
        return cv2.medianBlur(scan.reshape(1, -1), window)[0]

    def opening(scan, window):
        row = numpy.ones((1, window), "uint8")
        return cv2.morphologyEx(scan.reshape(1, -1), cv2.MORPH_OPEN, row, borderType=cv2.BORDER_REPLICATE)[0]

    return cv2.__version__, {"median": median, "opening": opening}


def best_time(call, rounds):
    start = time.perf_counter()
    call()
    times = 1 + int(0.002 / (time.perf_counter() - start))
    best = float("inf")
    for _ in range(rounds):
        start = time.perf_counter()
        for _ in range(times):
            call()
        best = min(best, (time.perf_counter() - start) / times)
    return best


def same_inside(scan, name, window, answer):
    """Whether the peer computes what we do, the ends left out."""
    import stackfilter
    around = stackfilter.offsets(*range(-(window // 2), window // 2 + 1))
    step = ("median" if name == "median" else "open", around)
    expected = stackfilter.run_recipe(stackfilter.recipe("signal", step), scan)
    return (answer == expected)[window:-window].all()


def row(filters, scan, name, window, rounds):
    try:
        answer = filters[name](scan, window)
    except Exception:
        return "not for 16 bits"
    if not same_inside(scan, name, window, answer):
        return "another filter"
    return f"{1e9 * best_time(lambda: filters[name](scan, window), rounds) / len(scan):.3f}"


def main(peer, scan_file, rounds):
    try:
        version, filters = {"SciPy": scipy_filters, "OpenCV": opencv_filters}[peer]()
    except ImportError:
        sys.exit(3)
    import numpy
    print(version)
    scan = numpy.fromfile(scan_file, "uint16")
    for name, windows in (("median", (3, 5, 9)), ("opening", (3, 5))):
        for window in windows:
            print(f"{name} {window}\t{row(filters, scan, name, window, int(rounds))}")
    ends = filters["opening"](numpy.array([5, 0, 0], "uint16"), 3)
    print("ends\t" + " ".join(map(str, ends)))


main(*sys.argv[1:])
