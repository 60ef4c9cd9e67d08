#!/usr/bin/env python3
"""Draws the hits by day and by site of a table VISITS with the columns DAY, SITE and HITS.

    picture.py FILE PICTURE         with the module lanes, pandas and matplotlib
"""

import sys

import lanes
import matplotlib

matplotlib.use("Agg")
import matplotlib.pyplot as plot

table = lanes.Table.open(sys.argv[1])
days, sites = table.queries(
    [
        "SELECT DAY,SUM(HITS) AS HITS FROM VISITS GROUP BY DAY",
        "SELECT SITE,SUM(HITS) AS HITS FROM VISITS GROUP BY SITE",
    ]
)
days, sites = days.to_pandas(), sites.to_pandas().nlargest(10, "HITS")[::-1]

figure, (left, right) = plot.subplots(1, 2, figsize=(11, 3.5), width_ratios=(2, 1))
left.plot(days["DAY"].astype(int), days["HITS"].astype(int))
left.set(title="hits by day", xlabel="DAY", ylim=(0, None))
right.barh(sites["SITE"].astype(str), sites["HITS"].astype(int))
right.set(title="busiest sites")
figure.tight_layout()
figure.savefig(sys.argv[2], dpi=80)
