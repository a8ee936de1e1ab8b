"""Auctions for the benchmarks: packages in a full binary tree, licences at its leaves."""
import json

STEP, PERCENT, OPENING = 1, 1, 100


class Auction:
    """An auction with a full binary tree of `levels` levels and some bidders.

    The nodes are n0, n1, .. from the top, the bidders b0, b1, .., and each bidder has `waivers` waivers.
    """

    def __init__(self, levels, bidders, stages=(50,), waivers=0):
        self.nodes = 2**levels - 1
        self.first_licence = self.nodes // 2
        self.bidders = bidders
        self.stages = stages
        self.waivers = waivers

    def definition(self):
        nodes = []
        for n in range(self.nodes):
            node = {"name": f"n{n}", "parent": f"n{(n - 1) // 2}" if n else None}
            if n >= self.first_licence:
                node.update(units=1, opening=OPENING)
            nodes.append(node)
        units = self.nodes - self.first_licence
        bidders = [{"name": f"b{b}", "units": units} for b in range(self.bidders)]
        rules = {"step": STEP, "percent": PERCENT, "stages": list(self.stages), "nodes": nodes, "bidders": bidders}
        if self.waivers:
            rules["waivers"] = self.waivers
        return json.dumps(rules, separators=(",", ":"))

    def minima(self, high):
        """The least next bid on each node, given the high bids of closed rounds."""
        inside = [0] * self.nodes
        for n in range(self.nodes - 1, 0, -1):
            inside[(n - 1) // 2] += max(high[n], inside[n])
        carried, price, opening = [0] * self.nodes, [0] * self.nodes, [0] * self.nodes
        for n in range(self.first_licence):
            down = carried[n] + max(0, high[n] - inside[n])
            carried[2 * n + 1], carried[2 * n + 2] = down - down // 2, down // 2
        for n in range(self.nodes - 1, -1, -1):
            if n >= self.first_licence:
                price[n], opening[n] = high[n] + carried[n], OPENING
            else:
                price[n] = price[2 * n + 1] + price[2 * n + 2]
                opening[n] = opening[2 * n + 1] + opening[2 * n + 2]
        return [max(o, p + -(-p * PERCENT // 100)) for o, p in zip(opening, price)]
