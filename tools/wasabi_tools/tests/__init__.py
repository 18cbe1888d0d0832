"""Tests of the package: python3 -B -m unittest discover -s tools/wasabi_tools/tests -t tools"""
