// What Java's own validator, with full schema checking, says of the schemas of a folder. compare/run differences starts it:
//
//   java compare/differences/Answers.java FOLDER CASE...
//
// For each CASE the folder has CASE.restricting.xsd and CASE.apart.xsd: the same two content models, in the first the derived
// type restricts the base type. One line each: case, and for either schema 'accepted' or the code of the first error.

import java.nio.file.Path;
import javax.xml.validation.SchemaFactory;
import org.xml.sax.SAXException;

public class Answers {
    static final String FULL_CHECKING = "http://apache.org/xml/features/validation/schema-full-checking";

    public static void main(String[] args) throws SAXException {
        SchemaFactory factory = SchemaFactory.newDefaultInstance();
        factory.setFeature(FULL_CHECKING, true);
        for (int i = 1; i < args.length; i++) {
            String restricting = answer(factory, Path.of(args[0], args[i] + ".restricting.xsd"));
            String apart = answer(factory, Path.of(args[0], args[i] + ".apart.xsd"));
            System.out.printf("%s\t%s\t%s%n", args[i], restricting, apart);
        }
    }

    static String answer(SchemaFactory factory, Path schema) {
        try {
            factory.newSchema(schema.toFile());
            return "accepted";
        } catch (SAXException e) {
            return e.getMessage().split(":")[0];
        }
    }
}
