package frame

// DecodeEach decodes a reply as Decode does. If it is a Response, each element in its root is passed to the function, and the
// root has only the tag. The function must not keep the element, but may keep its strings. So a long multistatus needs
// little more memory than its bytes.
//
// The function is called before the rest of the reply is decoded. If DecodeEach returns an error, what the function got is
// of no use.
func DecodeEach(b []byte, visit func(*Element)) (Reply, error) {
	if len(b) == 0 || b[0] != replyResponse {
		return Decode(b)
	}
	r := reader{b: b, at: 1}
	response := Response{Status: r.status(), Close: r.flag(), Fields: r.fields()}
	if r.has() {
		response.Root = r.each(visit)
	}
	if r.err == nil && r.at != len(b) {
		r.fail(r.at, "the end")
	}
	if r.err != nil {
		return nil, r.err
	}
	return response, nil
}

// each reads an element, and passes on each element in it.
func (r *reader) each(visit func(*Element)) *Element {
	root := new(Element)
	r.tag(root)
	// Each child is built where the one before was.
	block := builder{elements: make([]Element, elementBlock), nodes: make([]Node, nodeBlock)}
	for {
		r.tree.elements, r.tree.nodes = block.elements, block.nodes
		switch r.kind(nodeText, "a node") {
		case nodeElement:
			child := r.element(ReplyLevels - 1)
			if r.err != nil {
				return nil
			}
			visit(child)
		case nodeText:
			r.string()
		default:
			return root
		}
	}
}
