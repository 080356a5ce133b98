"""The measurements, which no test runs. docs/costs.tsv has what they printed."""
