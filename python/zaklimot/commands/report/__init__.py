"""Reports: what answers a run gave, beside its script, another report, or the suite."""
