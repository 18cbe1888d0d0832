"""Tests of tools/front, of the script wasabi and of tools/install: cd tools && python3 -m unittest discover -t . front/tests"""
