#!/usr/bin/python3
"""Counts the distinct lines of a file on the workers of a Dask cluster.

    with_dask.py FILE [WORKERS | SCHEDULER]

With a number N it starts N processes on this machine; with an address, as in tcp://10.0.0.1:8786, it uses the
workers there, which need sketchd on their path and see the file under the same name. Each worker makes the images of
its parts of the file, and the images are joined two by two. OPTIONS has the options of `image`, but --csv and --file: a
record may have line ends, at which a file is cut, and each worker reads its part."""
import os, subprocess, sys, tempfile

SKETCHD = os.environ.get("SKETCHD", "sketchd")
OPTIONS = os.environ.get("OPTIONS", "").split()
PARTS_EACH = 2


def part_ends(path, parts):
    """Where the parts of a file end, each at the end of a line."""
    size = os.path.getsize(path)
    ends = [0]
    with open(path, "rb") as text:
        for part in range(1, parts):
            text.seek(max(ends[-1], size * part // parts))
            text.readline()
            ends.append(text.tell())
    return ends + [size]


def image(path, start, end, options):
    """The image of the lines between two places of a file."""
    sketchd = subprocess.Popen([SKETCHD, "image", *options], stdin=subprocess.PIPE, stdout=subprocess.PIPE)
    with open(path, "rb") as text, sketchd.stdin:
        text.seek(start)
        while start < end and (piece := text.read(min(1 << 20, end - start))):
            sketchd.stdin.write(piece)
            start += len(piece)
    made = sketchd.stdout.read()
    if sketchd.wait():
        raise RuntimeError(f"sketchd image ended with status {sketchd.returncode}")
    return made


def join(left, right, *flags):
    """What `join` prints of two images: their estimate, or with `--image` their image."""
    with tempfile.TemporaryDirectory() as folder:
        names = [os.path.join(folder, name) for name in ("left", "right")]
        for name, text in zip(names, (left, right)):
            with open(name, "wb") as file:
                file.write(text)
        words = [SKETCHD, "join", "--left", names[0], "--right", names[1], *flags]
        return subprocess.run(words, check=True, stdout=subprocess.PIPE).stdout


def count(client, path):
    """The estimate of a file's distinct lines."""
    ends = part_ends(path, PARTS_EACH * len(client.scheduler_info()["workers"]))
    images = [client.submit(image, path, *part, OPTIONS, pure=False) for part in zip(ends, ends[1:])]
    while len(images) > 1:
        left_over = images[len(images) // 2 * 2:]
        images = [client.submit(join, a, b, "--image") for a, b in zip(images[::2], images[1::2])] + left_over
    # An image joined with itself is the same.
    return client.submit(join, images[0], images[0]).result().decode()


def main():
    if not 2 <= len(sys.argv) <= 3:
        sys.exit(__doc__)
    for word in {"--csv", "--file"} & set(OPTIONS):
        sys.exit(f"with_dask: OPTIONS cannot have {word}: each worker reads a part that is cut at a line end")
    path, where = os.path.abspath(sys.argv[1]), (sys.argv[2:] or ["4"])[0]
    if not os.path.isfile(path):
        sys.exit(f"with_dask: {path}: no such file")
    try:
        from distributed import Client, LocalCluster
    except ImportError:
        sys.exit("with_dask: Dask is not installed: apt-get install python3-distributed")
    try:
        if where.isdigit():
            where = LocalCluster(n_workers=int(where), threads_per_worker=1, dashboard_address=None)
        with Client(where) as client:
            sys.stdout.write(count(client, path))
    except (OSError, RuntimeError, ValueError, subprocess.CalledProcessError) as fault:
        sys.exit(f"with_dask: {fault}")


if __name__ == "__main__":
    main()
