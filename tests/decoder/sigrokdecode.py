"""Stands in for the module that sigrok gives its decoders: what a decoder puts is kept, and held to what it declares."""

OUTPUT_ANN, OUTPUT_BINARY = "annotation", "binary"


class Decoder:
    def register(self, kind):
        return kind

    def put(self, ss, es, output, data):
        index, content = data
        declared = {OUTPUT_ANN: self.annotations, OUTPUT_BINARY: self.binary}[output][index][0]
        assert 0 <= ss <= es, (ss, es)
        if output == OUTPUT_ANN:
            assert content and all(isinstance(text, str) and text for text in content), content
            rows = [row for row, _, classes in self.annotation_rows if index in classes]
            assert len(rows) == 1, (declared, rows)
        else:
            assert isinstance(content, bytes), content
        self.outputs.append((ss, es, declared, content))
