"""Tests of sst.py: SST_LIBRARY=PREFIX/lib/libsst.so python3 -m unittest bindings/python/test_sst.py"""
import io
import os
import random
import sys
import tempfile
import unittest

HERE = os.path.dirname(os.path.abspath(__file__))
sys.path[:0] = [HERE, os.path.join(HERE, "..", "..", "tools", "model")]
import entries as model_entries  # noqa: E402
import hashes as model_hashes  # noqa: E402
import runs as model_runs  # noqa: E402
import sst  # noqa: E402
from sst import Entry, Hash, ValueType  # noqa: E402

FEW = [Entry(b"ab", 2, b"x"), Entry(b"ab", 1, b"", ValueType.TOMBSTONE), Entry(b"ac", 300, b"y")]


def random_entries(seed, count):
    """Versions of keys that share prefixes, in order."""
    rand = random.Random(seed)
    keys = [b"%s%03d" % (rand.choice([b"", b"a", b"common/"]), rand.randrange(300)) for _ in range(count)]
    numbers = [rand.choice([0, 1, 7, 2**63, sst.MAX_SEQNO]) if rand.random() < 0.2 else rand.randrange(1000)
               for _ in keys]
    rows = sorted(set(zip(keys, numbers)), key=lambda row: (row[0], -row[1]))
    return [Entry(key, number, b"", ValueType.TOMBSTONE) if rand.random() < 0.2
            else Entry(key, number, bytes(rand.randrange(256) for _ in range(rand.choice([0, 5, 60]))))
            for key, number in rows]


def staying(tables, snapshots, bottom, start, end):
    """What a compaction of lists, the newest first, has to leave."""
    merged = sorted((e for table in tables for e in table if start <= e.key and (end is None or e.key < end)),
                    key=lambda e: (e.key, -e.seqno))
    left = []
    for at, entry in enumerate(merged):
        seen = [s for s in snapshots if entry.seqno < s]
        found = [s for s in seen if not any(e.key == entry.key and e.seqno < s for e in merged[:at])]
        needed = any(e.key == entry.key and e.seqno < s <= entry.seqno for e in merged[at + 1:] for s in snapshots)
        dead = bottom and entry.type == ValueType.TOMBSTONE and not needed
        if not seen or found and not dead:
            left.append(entry)
    return left


class Tables(unittest.TestCase):
    def test_few(self):
        table = sst.Table(sst.write(FEW, block_size=1))
        self.assertEqual(table.summary, (3, 3, 1, 300))
        self.assertEqual(list(table), FEW)
        self.assertEqual([table.block(index) for index in range(3)], [[entry] for entry in FEW])
        self.assertEqual(table.get(b"ab"), FEW[0])
        self.assertEqual(table.get(b"ab", below=2), FEW[1])
        self.assertIsNone(table.get(b"ab", below=1))
        self.assertIsNone(table.get(b"aa"))
        self.assertEqual(list(table.scan(b"ab\0")), FEW[2:])
        self.assertEqual(list(table.scan(b"ab", b"ac", reverse=True)), [FEW[1], FEW[0]])

    def test_random(self):
        for seed in range(40):
            entries = random_entries(seed, 1 + seed * 10)
            data = sst.write(entries, block_size=[1, 100, 4096][seed % 3], restart_interval=1 + seed % 17,
                             index_interval=1 + seed % 3, bits_per_key=seed % 2 * 10, hash_ratio=(seed % 3, 2),
                             hash=Hash(seed // 2 % 2))
            table = sst.Table(data, hash=Hash(seed // 2 % 2))
            self.assertEqual(list(table), entries)
            self.assertEqual(list(reversed(table)), entries[::-1])
            self.assertEqual(len(table), len(entries))
            blocks = [table.block(index) for index in range(table.summary.blocks)]
            self.assertTrue(all(blocks))
            self.assertEqual([entry for block in blocks for entry in block], entries)
            for index in range(0, len(entries), 7):
                low, high = entries[index].key, entries[(index * 5 + 3) % len(entries)].key
                within = [e for e in entries if low <= e.key < high]
                self.assertEqual(list(table.scan(low, high)), within)
                self.assertEqual(list(table.scan(low, high, reverse=True)), within[::-1])
                below = [e for e in within if e.seqno < 500]
                self.assertEqual(list(table.scan(low, high, below=500, batch=1)), below)
                self.assertEqual(list(table.scan(low, high, reverse=True, below=500, batch=3)), below[::-1])
                newest = next((e for e in entries if e.key == low and e.seqno < 500), None)
                self.assertEqual(table.get(low, below=500), newest)

    def test_pieces(self):
        entries = [Entry(b"user/%08d" % (i // 2), 3 if i % 2 else 9, bytes([97 + i % 26]) * (i % 50))
                   for i in range(100_000)]
        for form in ({}, {"bits_per_key": 0, "hash_ratio": (3, 4), "block_size": 1000, "index_interval": 4},
                     {"hash": Hash.POLY31}):
            file = io.BytesIO()
            writer = sst.Writer(file, **form)
            for entry in entries[:-1]:
                writer.add(entry)
            self.assertGreater(file.tell(), 1_000_000)
            writer.add(entries[-1])
            writer.finish()
            self.assertEqual(file.getvalue(), sst.write(entries, **form))
            table = sst.Table(file.getvalue(), form.get("hash", Hash.XXH3))
            self.assertEqual(len(table), len(entries))
            self.assertEqual(list(table), entries)

    def test_pieces_of_random(self):
        for seed in range(20):
            entries, file = random_entries(seed, 1 + seed * 10), io.BytesIO()
            form = {"block_size": [1, 100, 4096][seed % 3], "bits_per_key": seed % 2 * 10}
            writer = sst.Writer(file, **form)
            for entry in entries:
                writer.add(entry)
            writer.finish()
            self.assertEqual(file.getvalue(), sst.write(entries, **form))

    def test_pieces_refused(self):
        writer, file = sst.Writer(io.BytesIO()), io.BytesIO()
        with self.assertRaises(sst.Error) as met:
            writer.finish()
        self.assertEqual(str(met.exception), "SST_BAD_ARGUMENT")
        writer = sst.Writer(file, block_size=1)
        writer.add(Entry(b"b", 5, b"x" * 10_000))
        for entry, name in ((Entry(b"", 1), "SST_BAD_ARGUMENT"), (Entry(b"a", 9), "SST_OUT_OF_ORDER"),
                            (Entry(b"b", 6), "SST_OUT_OF_ORDER")):
            with self.assertRaises(sst.Error) as met:
                writer.add(entry)
            self.assertEqual(str(met.exception), name)
        writer.add(Entry(b"b", 5))
        writer.finish()
        self.assertEqual(list(sst.Table(file.getvalue())), [Entry(b"b", 5, b"x" * 10_000), Entry(b"b", 5)])

    def test_refused(self):
        whole = sst.write(FEW)
        for data, name in ((b"", "SST_TRUNCATED"), (whole[:20], "SST_TRUNCATED"),
                           (bytes([whole[0] ^ 1]) + whole[1:], "SST_INVALID_HEADER"),
                           (whole[:33] + bytes([whole[33] ^ 1]) + whole[34:], "SST_CHECKSUM_MISMATCH")):
            with self.assertRaises(sst.Error) as met:
                sst.Table(data)
            self.assertEqual(str(met.exception), name)
        whole, ends = sst.write(FEW, block_size=1), set()
        for at in range(len(whole) - 24):
            with self.assertRaises(sst.Error) as met:
                sst.Table(whole[:at] + bytes([whole[at] ^ 1]) + whole[at + 1:])
            end = met.exception.end
            self.assertTrue(end.offset <= at < end.offset + end.size, (at, end))
            ends.add((end.part, end.block))
        self.assertEqual(ends, {(0, 0), (0, 1), (0, 2), (1, 0), (2, 0)})
        for entries in ([], FEW[::-1], [Entry(b"", 1)]):
            with self.assertRaises(sst.Error) as met:
                sst.write(entries)
            self.assertEqual(str(met.exception), "SST_BAD_ARGUMENT")
        with self.assertRaises(IndexError):
            sst.Table(whole).block(3)

    def test_model(self):
        for seed in range(30):
            entries = random_entries(seed, 1 + seed * 8)
            items = [model_entries.Entry(model_entries.TYPES[e.type], e.seqno, e.key, e.value) for e in entries]
            size, interval, ratio = [1, 100, 4096][seed % 3], 1 + seed % 17, (seed % 3, 2)
            form = model_runs.Form(interval, *ratio, seed % 2 * 10, 1 + seed % 3)
            blocks = model_runs.blocks_of(items, sst._cuts(entries, size))
            for hash, model in ((Hash.XXH3, model_hashes.Xxh3), (Hash.POLY31, model_hashes.Poly31)):
                run, places = model_runs.write(model, blocks, form)
                data = run + model_runs.footer_of(places)
                ours = sst.write(entries, size, interval, form.index_interval, form.bits_per_key, ratio, hash)
                self.assertEqual(ours, data)
                self.assertEqual(list(sst.Table(data, hash)), entries)

    def test_hash(self):
        for hash, other in ((Hash.XXH3, Hash.POLY31), (Hash.POLY31, Hash.XXH3)):
            data = sst.write(FEW, hash=hash)
            self.assertEqual(list(sst.Table(data, hash=hash)), FEW)
            with self.assertRaises(sst.Error) as met:
                sst.Table(data, hash=other)
            self.assertEqual((str(met.exception), met.exception.end.part), ("SST_CHECKSUM_MISMATCH", 2))
        self.assertEqual(sst.write(FEW), sst.write(FEW, hash=Hash.XXH3))
        for call in (lambda: sst.write(FEW, hash=2), lambda: sst.Table(sst.write(FEW), hash=65536),
                     lambda: sst.Writer(io.BytesIO(), hash=65536)):
            with self.assertRaises(ValueError):
                call()

    def test_compact(self):
        for seed in range(60):
            rand = random.Random(seed)
            lists = [random_entries(3 * seed + n, 1 + seed * 4) for n in range(rand.randrange(1, 4))]
            tables = [sst.Table(sst.write(entries, block_size=100, hash=Hash(n % 2)), hash=Hash(n % 2))
                      for n, entries in enumerate(lists)]
            snapshots = [rand.choice([0, 1, 7, 500, 800, 2**63, sst.MAX_SEQNO]) for _ in range(rand.randrange(4))]
            keys = sorted([rand.choice(lists[0]).key, rand.choice(lists[-1]).key])
            start, end = rand.choice([b"", keys[0]]), rand.choice([None, keys[1]])
            form = {"block_size": rand.choice([1, 2**40]), "restart_interval": 1 + seed % 17, "hash": Hash(seed // 2 % 2),
                    "bits_per_key": seed % 3 * 5, "hash_ratio": (seed % 3, 2)}
            left = staying(lists, snapshots, seed % 2 == 1, start, end)
            made = sst.compact(tables, snapshots, seed % 2 == 1, start, end, **form)
            self.assertEqual(made, sst.write(left, **form) if left else None)
        self.assertIsNone(sst.compact([]))
        with self.assertRaises(sst.Error) as met:
            sst.compact([], restart_interval=0)
        self.assertEqual(str(met.exception), "SST_BAD_ARGUMENT")
        with self.assertRaises(ValueError):
            sst.compact([], hash=2)

    def test_merge(self):
        for seed in range(60):
            rand = random.Random(seed)
            lists = [random_entries(3 * seed + n, 1 + seed * 4) for n in range(rand.randrange(1, 4))]
            # The last one has the entries of the first with other values.
            lists.append([Entry(e.key, e.seqno, b"w") for e in lists[0]])
            tables = [sst.Table(sst.write(entries, block_size=100, hash=Hash(n % 2)), hash=Hash(n % 2))
                      for n, entries in enumerate(lists)]
            snapshots = [rand.choice([0, 1, 7, 500, 800, 2**63, sst.MAX_SEQNO]) for _ in range(rand.randrange(4))]
            keys = sorted([rand.choice(lists[0]).key, rand.choice(lists[-1]).key])
            start, end = rand.choice([b"", keys[0]]), rand.choice([None, keys[1]])
            for numbers in ([], snapshots):
                left = staying(lists, numbers, False, start, end)
                self.assertEqual(list(sst.merge(tables, start, end, snapshots=numbers)), left)
                below = [e for e in left if e.seqno < 500]
                self.assertEqual(list(sst.merge(tables, start, end, 500, numbers, batch=1 + seed)), below)
        self.assertEqual(list(sst.merge([])), [])
        with self.assertRaises(ValueError):
            sst.merge([], batch=0)

    def test_file(self):
        with tempfile.TemporaryDirectory() as room:
            path = os.path.join(room, "few.sst")
            with open(path, "wb") as file:
                file.write(sst.write(FEW, hash=Hash.POLY31))
            with sst.Table.open(path, hash=Hash.POLY31) as table:
                self.assertEqual(list(table), FEW)
                self.assertEqual(table.get(b"ac"), FEW[2])
            with self.assertRaises(sst.Error):
                sst.Table.open(path)
            open(path, "wb").close()
            with self.assertRaises(sst.Error):
                sst.Table.open(path)
            with self.assertRaises(OSError):
                sst.Table.open(os.path.join(room, "none"))


if __name__ == "__main__":
    unittest.main()
