package hidlog

import (
	"encoding/binary"
	"errors"
	"fmt"
)

// entry is a key of a CBOR map, and its value. To encode a map, use a slice of its entries in canonical order (CTAP
// 2.1, section 8); encode does not sort them.
type entry struct{ key, value any }

var errCBOR = errors.New("hidlog: the authenticator's response is not valid CBOR, or lacks a required member")

// encode returns a value as CBOR. The value must be an int, []byte, string, bool, []any or []entry. Numbers and lengths
// must be below 65536.
func encode(item any) []byte {
	switch value := item.(type) {
	case int:
		if value < 0 {
			return encodeHead(1, uint64(-1-value))
		}
		return encodeHead(0, uint64(value))
	case []byte:
		return append(encodeHead(2, uint64(len(value))), value...)
	case string:
		return append(encodeHead(3, uint64(len(value))), value...)
	case bool:
		if value {
			return []byte{0xF5}
		}
		return []byte{0xF4}
	case []any:
		out := encodeHead(4, uint64(len(value)))
		for _, element := range value {
			out = append(out, encode(element)...)
		}
		return out
	case []entry:
		out := encodeHead(5, uint64(len(value)))
		for _, element := range value {
			out = append(append(out, encode(element.key)...), encode(element.value)...)
		}
		return out
	default:
		panic(fmt.Sprintf("hidlog: cannot encode %T as CBOR", item))
	}
}

func encodeHead(major byte, argument uint64) []byte {
	switch {
	case argument < 24:
		return []byte{major<<5 | byte(argument)}
	case argument < 1<<8:
		return []byte{major<<5 | 24, byte(argument)}
	default:
		return binary.BigEndian.AppendUint16([]byte{major<<5 | 25}, uint16(argument))
	}
}

// decode decodes the first CBOR item in from, and returns the item and the bytes after it. A CBOR map becomes a
// map[any]any.
func decode(from []byte) (item any, rest []byte, err error) {
	if len(from) == 0 {
		return nil, nil, errCBOR
	}
	major, argument, rest, err := decodeHead(from)
	if err != nil {
		return nil, nil, err
	}
	switch major {
	case 0:
		return int(argument), rest, nil
	case 1:
		return -1 - int(argument), rest, nil
	case 2, 3:
		if uint64(len(rest)) < argument {
			return nil, nil, errCBOR
		}
		if major == 3 {
			return string(rest[:argument]), rest[argument:], nil
		}
		return rest[:argument], rest[argument:], nil
	case 4:
		return decodeArray(argument, rest)
	case 5:
		return decodeMap(argument, rest)
	case 7:
		return argument == 21, rest, nil
	default:
		return nil, nil, errCBOR
	}
}

func decodeHead(from []byte) (major byte, argument uint64, rest []byte, err error) {
	major, short := from[0]>>5, from[0]&31
	rest = from[1:]
	if short < 24 {
		return major, uint64(short), rest, nil
	}
	size := 1 << (short - 24)
	if short > 26 || len(rest) < size {
		return 0, 0, nil, errCBOR
	}
	for _, b := range rest[:size] {
		argument = argument<<8 | uint64(b)
	}
	return major, argument, rest[size:], nil
}

func decodeArray(count uint64, rest []byte) (any, []byte, error) {
	var found []any
	for ; count > 0; count-- {
		item, after, err := decode(rest)
		if err != nil {
			return nil, nil, err
		}
		found, rest = append(found, item), after
	}
	return found, rest, nil
}

func decodeMap(count uint64, rest []byte) (any, []byte, error) {
	found := map[any]any{}
	for ; count > 0; count-- {
		key, after, err := decode(rest)
		if err != nil {
			return nil, nil, err
		}
		switch key.(type) {
		case int, string:
		default:
			return nil, nil, errCBOR
		}
		if found[key], rest, err = decode(after); err != nil {
			return nil, nil, err
		}
	}
	return found, rest, nil
}
