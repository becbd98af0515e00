"""Studies: the chain over many datasets, settings, plans and days, by Snakemake."""
