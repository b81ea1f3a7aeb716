"""Keeps an order in the file first.img; a second run finds what the first one left."""
import os
from orderset import Mode, Set

if not os.path.exists("first.img"):
    Set.create("first.img", 1000)  # room for 999 open orders; layout 1
with Set("first.img", Mode.WRITE) as orders:
    if 7 not in orders:
        orders.book_new(7, 100)
    orders.book_fill(7, 40)
    for record in orders:
        if order := record.order():
            print(f"{record.key}: ordered {order.ordered}, filled {order.filled}")
