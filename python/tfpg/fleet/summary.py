"""The summary of a fleet: a database of what its vehicles' reports say, with the questions that a crew asks of it as views."""

from __future__ import annotations

import json
import sqlite3
from pathlib import Path
from typing import Any, Dict, List, Optional, Tuple

COLUMNS = ("vehicle", "lines", "accepted", "lost", "first_refused", "now", "since", "ranked", "covered", "rejected", "open", "log",
           "report", "checked", "fault", "graph", "k", "doubt", "budget", "line")  # of the table of vehicles
Line = Dict[str, Any]  # what `Result.to_dict` makes, with the terms

SCHEMA = """
create table vehicles (
    vehicle text primary key, lines integer, accepted integer, lost integer, first_refused integer, now integer, since integer,
    ranked integer, covered integer, rejected integer, open integer, log text, report text, checked integer, fault text,
    graph text, k integer, doubt integer, budget integer, line text) without rowid;
create table ranked (
    vehicle text, place integer, "set" text, cost integer, alarmed integer, monitored integer, first integer, since integer, began integer,
    primary key (vehicle, place)) without rowid;
create table refused (vehicle text, cause text, lines integer, primary key (vehicle, cause)) without rowid;
create index ranked_by_set on ranked ("set");
create view best as select vehicle, "set", cost, alarmed, monitored, first, since, began from ranked where place = 1;
create view vehicles_by_set as select "set", vehicle, place, cost, since, first, began from ranked order by "set", since, vehicle;
create view sets as select "set", count(*) as vehicles, sum(place = 1) as best_of, min(since) as since, min(cost) as cost
    from ranked group by "set" order by vehicles desc, "set";
create view open_vehicles as select vehicle, open, now from vehicles where open > 0 order by open desc, vehicle;
create view lost_lines as select vehicle, cause, refused.lines as lost, first_refused, vehicles.lines as lines
    from refused join vehicles using (vehicle) order by vehicles.lost desc, vehicle, refused.lines desc, cause;
create view unexplained as select vehicle, now, since from vehicles where accepted > 0 and ranked = 0 and open = 0 order by vehicle;
create view faults as select vehicle, fault from vehicles where fault != '' order by vehicle;
create view worst as select vehicles.vehicle as vehicle, fault, lines, lost, vehicles.ranked as sets, open, best."set" as best,
    best.cost as cost, best.since as since, line from vehicles left join best using (vehicle)
    order by case
        when fault != '' then 0
        when accepted = 0 then case when lines > 0 then 3 else 6 end
        when vehicles.ranked = 0 then case when open > 0 then 2 else 1 end
        else case when best."set" != '-' then 4 else 5 end end,
    length(best."set") - length(replace(best."set", ',', '')) desc, best.cost desc, lost desc, vehicle;
"""


class Summary:
    """The database, in a file that is made anew, or in memory."""

    def __init__(self, path: Optional[Path] = None) -> None:
        if path is not None and path.exists():
            path.unlink()
        self.base = sqlite3.connect(":memory:" if path is None else str(path))
        self.base.execute("pragma synchronous = off")
        self.base.executescript(SCHEMA)

    def add(self, line: Line) -> None:
        """Takes what is known of a vehicle."""
        ranked, refused = line["ranked"], line["refused"]
        values = {**line, "lost": sum(refused.values()), "ranked": len(ranked), "line": json.dumps(line)}
        self.base.execute(f"insert into vehicles values ({', '.join('?' * len(COLUMNS))})", [values[name] for name in COLUMNS])
        self.base.executemany("insert into ranked values (?, ?, ?, ?, ?, ?, ?, ?, ?)",
                              [(line["vehicle"], place, *one.values()) for place, one in enumerate(ranked, 1)])
        self.base.executemany("insert into refused values (?, ?, ?)", [(line["vehicle"], *one) for one in refused.items()])

    def rows(self, query: str) -> List[Tuple[Any, ...]]:
        """The rows of a query."""
        return self.base.execute(query).fetchall()

    def close(self) -> None:
        """Stores what was taken."""
        self.base.commit()
        self.base.close()


