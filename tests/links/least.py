"""The least costs of a network by plain computation, and how long a network may take to have them."""

from spaces import INFINITY, until

# Seconds within which regular updates, up to 45 s apart, and triggered ones, up to 5 s apart, have told all; in which
# what is lost is deleted; and in which an answer comes, sooner than any of these.
REGULAR, TRIGGERED, GARBAGE, QUICK = 100, 30, 170, 20


def least(cables, owned):
    """Each router's metrics: a cable is a router, what the cable costs there, and the same of its other end."""
    tables = {router: dict.fromkeys(prefixes, 1) for router, prefixes in owned.items()}
    for _ in range(INFINITY):
        for one, cost, other, cost_there in cables:
            for here, added, there in ((one, cost, other), (other, cost_there, one)):
                for prefix, metric in tables[there].items():
                    if metric + added < tables[here].get(prefix, INFINITY):
                        tables[here][prefix] = metric + added
    return tables


def differing(routers, wanted):
    """The tables that are not as they are wanted."""
    found = {name: router.table() for name, router in routers.items()}
    return {name: table for name, table in found.items() if table != wanted[name]}


def settle(routers, wanted, seconds=REGULAR):
    """Waits until each router has these metrics, and its kernel just the prefixes that are learned."""

    def wrong():
        """What is not so, in words."""
        tables = [f"{name} has {table} and not {wanted[name]}" for name, table in differing(routers, wanted).items()]
        learned = {name: {prefix for prefix, metric in table.items() if metric > 1} for name, table in wanted.items()}
        kernels = {name: set(router.kernel()) for name, router in routers.items()} if not tables else {}
        return tables + [f"the kernel of {name} has {has}" for name, has in kernels.items() if has != learned[name]]

    until(seconds, lambda: "; ".join(wrong())[:600], lambda: not wrong())
