package davxml

import (
	"encoding/xml"
	"sort"
	"strings"

	"davserve/internal/frame"
)

// element returns the element of a start tag without its nodes, and binds the prefixes that it declares.
func (p *parser) element(t xml.StartElement) (*frame.Element, error) {
	attributes, err := p.written(t)
	if err != nil {
		return nil, err
	}
	for _, a := range attributes {
		prefix, ok := declaredPrefix(a.Name)
		if !ok {
			continue
		}
		if why := refusal(prefix, a.Value); why != "" {
			return nil, p.malformed(why)
		}
		p.scope.bind(prefix, a.Value)
	}
	namespace := p.scope.namespace(t.Name.Space)
	if t.Name.Space != "" && namespace == "" {
		return nil, p.malformed("an element has an undeclared prefix")
	}
	attributes, err = p.complete(attributes)
	if err != nil {
		return nil, err
	}
	return &frame.Element{
		Name: t.Name.Local, Prefix: t.Name.Space, Namespace: namespace, Attributes: attributes,
	}, nil
}

// written returns the attributes of a start tag in order.
func (p *parser) written(t xml.StartElement) ([]frame.Attribute, error) {
	if !isQualified(t.Name) {
		return nil, p.malformed("the name of an element is not qualified")
	}
	if len(t.Attr) == 0 {
		return nil, nil
	}
	attributes := make([]frame.Attribute, 0, len(t.Attr))
	for _, a := range t.Attr {
		if !isQualified(a.Name) {
			return nil, p.malformed("the name of an attribute is not qualified")
		}
		attributes = append(attributes, frame.Attribute{Name: written(a.Name), Value: a.Value})
	}
	sortAttributes(attributes)
	for i := 1; i < len(attributes); i++ {
		if attributes[i].Name == attributes[i-1].Name {
			return nil, p.malformed("an element has two attributes with the same name")
		}
	}
	return attributes, nil
}

// complete checks the prefixes of attributes, which are in order, and adds the declarations of the prefixes that only
// outer elements declare.
func (p *parser) complete(attributes []frame.Attribute) ([]frame.Attribute, error) {
	var declarations []frame.Attribute
	var seen map[xml.Name]bool // the attributes with a prefix, by their namespaces
	before := ""
	for _, a := range attributes {
		prefix, local, ok := strings.Cut(a.Name, ":")
		if !ok || prefix == "xmlns" || prefix == "xml" { // no other prefix has their namespaces
			continue
		}
		namespace := p.scope.namespace(prefix)
		if namespace == "" {
			return nil, p.malformed("an attribute has an undeclared prefix")
		}
		name := xml.Name{Space: namespace, Local: local}
		if seen[name] {
			return nil, p.malformed("an element has two attributes with the same namespace and local name")
		}
		if seen == nil {
			seen = map[xml.Name]bool{}
		}
		seen[name] = true
		// Attributes with the same prefix follow one another.
		if prefix != before && !has(attributes, "xmlns:"+prefix) {
			declarations = append(declarations, frame.Attribute{Name: "xmlns:" + prefix, Value: namespace})
		}
		before = prefix
	}
	if declarations == nil {
		return attributes, nil
	}
	attributes = append(attributes, declarations...)
	sortAttributes(attributes)
	return attributes, nil
}

// language returns the xml:lang in the scope of an element that is not open yet. It adds it to an element that davd
// stores.
func (p *parser) language(e *frame.Element) string {
	const name = "xml:lang"
	for _, a := range e.Attributes {
		if a.Name == name {
			return a.Value
		}
	}
	if len(p.open) == 0 {
		return ""
	}
	language := p.open[len(p.open)-1].language
	if language != "" && p.isStored(e) {
		e.Attributes = append(e.Attributes, frame.Attribute{Name: name, Value: language})
		sortAttributes(e.Attributes)
	}
	return language
}

// isStored returns whether an element inside the open elements is a property that a PROPPATCH sets, or the owner of a
// lock.
func (p *parser) isStored(e *frame.Element) bool {
	switch len(p.open) {
	case 1:
		return isDAV(p.open[0].element, "lockinfo") && isDAV(e, "owner")
	case 3:
		return isDAV(p.open[0].element, "propertyupdate") && isDAV(p.open[1].element, "set") &&
			isDAV(p.open[2].element, "prop")
	}
	return false
}

func isDAV(e *frame.Element, name string) bool {
	return e.Namespace == "DAV:" && e.Name == name
}

func sortAttributes(attributes []frame.Attribute) {
	if len(attributes) > 1 {
		sort.Slice(attributes, func(i, j int) bool { return attributes[i].Name < attributes[j].Name })
	}
}

// has returns whether one of the attributes, which are in order, has this name.
func has(attributes []frame.Attribute, name string) bool {
	i := sort.Search(len(attributes), func(i int) bool { return attributes[i].Name >= name })
	return i < len(attributes) && attributes[i].Name == name
}
