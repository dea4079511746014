"""The page of the service: views in HTML that are whole without a script, and a small script for what changes and for reading plots."""
