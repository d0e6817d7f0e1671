// Checks the files of one project with gqlparser, the schema in s.graphql: `go build`, then `gqlparser FILE..`.
package main

import (
	"fmt"
	"os"
	"strings"

	"github.com/vektah/gqlparser/ast"
	"github.com/vektah/gqlparser/parser"
	"github.com/vektah/gqlparser/validator"
	_ "github.com/vektah/gqlparser/validator/rules"
)

func main() {
	sources := []*ast.Source{validator.Prelude}
	var operations strings.Builder
	for _, file := range os.Args[1:] {
		text, err := os.ReadFile(file)
		if err != nil {
			panic(err)
		}
		if strings.HasSuffix(file, "s.graphql") {
			sources = append(sources, &ast.Source{Name: file, Input: string(text)})
		} else {
			operations.Write(text)
			operations.WriteString("\n")
		}
	}
	schema, fault := validator.LoadSchema(sources...)
	if fault != nil {
		panic(fault)
	}
	document, wrong := parser.ParseQuery(&ast.Source{Name: "operations", Input: operations.String()})
	if wrong != nil {
		panic(wrong)
	}
	for _, one := range validator.Validate(schema, document) {
		fmt.Println(one)
		os.Exit(1)
	}
	fmt.Println("ok")
}
