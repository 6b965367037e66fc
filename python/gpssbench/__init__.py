"""What-if studies with gpssbench, from Python: sessions that stay open, reports as tables, statistics over replications.

The tools of the folder tools/ are commands over these modules. The core needs nothing but Python 3.11."""
from .bench import Bench, Measure, NoMemory, NoReplication, NoReport, NoStart, Refused, Report, Reports, TooLong
from .command import Problem
from .program import Ended
from .stats import Estimate, estimate

__all__ = [
    "Bench", "Ended", "Estimate", "Measure", "NoMemory", "NoReplication", "NoReport", "NoStart", "Problem", "Refused",
    "Report", "Reports", "TooLong", "estimate",
]
