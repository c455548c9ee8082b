"""Pictures of runs, of rows left and of speeds as SVG; tools/draw.py is their command line."""
