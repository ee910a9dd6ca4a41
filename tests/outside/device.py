#!/usr/bin/env python3
"""A library on a block device: what --format refuses, and 100 kills. Root and losetup are needed.

device.py [KILLS] [FOLDER] [SEED]: uses a loop device over a file in FOLDER (this one). It checks each refusal of --format: of a device that has
something else on it, has a file system, is mounted, is used for swapping, is too small, or is open in another process; each time the device is looked
at afterwards, and has to be as before. Then the library is made and filled by 1,000 adds; the process that adds is killed KILLS (100) times, as in
kills.py; and the library is compacted and opened again. The program is `cclib library`; CCLIB names one that is built elsewhere."""

import hashlib
import os
import random
import subprocess
import sys
import tempfile

import kills

AREA = 1 << 24
ADDS = 1000


class Device:
    """A loop device over a new file."""

    def __init__(self, folder, size):
        self.file = os.path.join(folder, "device")
        with open(self.file, "wb") as file:
            file.truncate(size)
        made = subprocess.run(["losetup", "-f", "--show", self.file], check=True, capture_output=True, text=True)
        self.path = made.stdout.strip()

    def sum(self):
        subprocess.run(["sync", self.path], check=True)
        with open(self.path, "rb") as file:
            return hashlib.sha256(file.read()).hexdigest()

    def put(self, at, data):
        with open(self.path, "r+b") as file:
            file.seek(at)
            file.write(data)
            file.flush()
            os.fsync(file.fileno())

    def end(self):
        subprocess.run(["losetup", "-d", self.path], check=False)


def is_done(*words):
    return subprocess.run(words, capture_output=True).returncode == 0


def refused(store, device, what, fault, words, area=AREA):
    """Tries a --format that is to be refused, and checks whether the device is as before."""
    before = device.sum()
    done = subprocess.run([store.PROGRAM, "library", device.path, "--format", str(area)], input="", capture_output=True, text=True)
    if done.stdout != fault + "\n" or done.returncode != 1 or words not in done.stderr or device.sum() != before:
        sys.exit(f"device.py: {what}: {done.stdout}{done.stderr}")
    print(f"{what}: {fault}; {done.stderr.strip()}")


def refusals(store, device, folder):
    disk, cleared = "fault 35 DiskFault", "dd if=/dev/zero"
    device.put(0, b"\x01")
    refused(store, device, "a device with something else on it", disk, cleared)
    device.put(0, bytes(1 << 17))
    if is_done("mkfs.ext4", "-q", "-F", device.path):
        refused(store, device, "a file system", disk, cleared)
        mount = os.path.join(folder, "mount")
        os.mkdir(mount)
        if is_done("mount", device.path, mount):
            refused(store, device, "a file system that is mounted", disk, "mounted")
            subprocess.run(["umount", mount], check=True)
        else:
            print("not tried: mount")
    else:
        print("not tried: mkfs.ext4")
    if is_done("mkswap", device.path) and is_done("swapon", device.path):
        refused(store, device, "a device that is swapped on", disk, "swapped")
        subprocess.run(["swapoff", device.path], check=True)
    else:
        print("not tried: swapon")
    name = "cclib-device-py"
    if is_done("dmsetup", "create", name, "--table", f"0 8 linear {device.path} 0"):
        refused(store, device, "a device below another one", disk, "another device")
        subprocess.run(["dmsetup", "remove", name], check=True)
    else:
        print("not tried: dmsetup")
    device.put(0, bytes(1 << 17))
    refused(store, device, "a device that is too small", "fault 34 Full", "fewer", area=AREA + 4096)


def in_use(store, device):
    holder = subprocess.Popen([store.PROGRAM, "library", device.path], stdin=subprocess.PIPE, stdout=subprocess.PIPE, text=True)
    holder.stdin.write("list\n")
    holder.stdin.flush()
    holder.stdout.readline()
    refused(store, device, "a device that is open in another process", "fault 35 DiskFault", "another process")
    holder.communicate()


def main():
    words, store = sys.argv[1:], kills.Session()
    many, folder = int(words[0]) if words else 100, words[1] if len(words) > 1 else "."
    chance = random.Random(int(words[2]) if len(words) > 2 else 1)
    kills.AREA = AREA
    with tempfile.TemporaryDirectory(dir=folder) as work:
        device = Device(work, 16 + 2 * AREA + 496)
        try:
            refusals(store, device, work)
            store.make(device.path)
            before = lost = more = acknowledged = 0
            while before < ADDS:
                said, is_full = store.add(device.path, before, 0.5)
                before = store.count(device.path)
            in_use(store, device)
            for _ in range(many):
                said, is_full = store.add(device.path, before, chance.uniform(0, 0.2))
                if is_full:
                    sys.exit("device.py: the device is full")
                count = store.count(device.path)
                acknowledged += said
                lost += max(before + said - count, 0)
                more += count == before + said + 1
                if count > before + said + 1:
                    sys.exit(f"device.py: {count} units, {before + said} acknowledged")
                before = count
            store.run(device.path, "compact\n")
            lost += before - store.count(device.path)
        finally:
            device.end()
    print(f"{many} kills on a device of {before} units in the end, {acknowledged} acknowledged meanwhile, {lost} lost, {more} times one more")
    sys.exit(lost > 0)


if __name__ == "__main__":
    main()
