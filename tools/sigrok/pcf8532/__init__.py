"""
PCF8532 or PCA85133 LCD drivers on one I²C bus, stacked on 'i2c': what each byte does, what the proved model answers to each transfer, what is lit
after it, and where bus and model differ. A capture begins at power-on; docs/BENCH.md of Humtrellis says the rest.
"""

from .pd import Decoder
