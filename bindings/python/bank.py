"""Two locks in opposite orders, by two threads that never meet: `record -- python3 -m witness bank.py` reports them."""

import threading


class Account:
    def __init__(self):
        self.balance = 100
        self.lock = threading.Lock()


class Journal:
    def __init__(self):
        self.lines = []
        self.lock = threading.Lock()


account = Account()
journal = Journal()


def transfer(amount):
    with account.lock:
        account.balance -= amount
        with journal.lock:
            journal.lines.append("transfer")


def audit():
    with journal.lock:
        with account.lock:
            journal.lines.append("sum %d" % account.balance)


def run(function, *words):
    thread = threading.Thread(target=function, args=words)
    thread.start()
    thread.join()


run(transfer, 10)
run(audit)
print(journal.lines)
