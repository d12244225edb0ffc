"""gafd_sync: a folder of sheets beside a `gafd serve`, for who draws in lepton-schematic."""
