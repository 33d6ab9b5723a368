import java.nio.file.Files;
import java.nio.file.Path;
import org.bouncycastle.asn1.cmp.PKIBody;
import org.bouncycastle.asn1.cmp.PKIMessage;
import org.bouncycastle.asn1.crmf.CertReqMessages;
import org.bouncycastle.asn1.crmf.CertReqMsg;
import org.bouncycastle.asn1.crmf.CertTemplate;
import org.bouncycastle.asn1.x509.SubjectPublicKeyInfo;

/**
 * Times Bouncy Castle's reading of CMP messages on one core.
 *
 * <p>The arguments are paths of files that hold a message each. Prints a line for each of them: the path, a tab, and the
 * nanoseconds of one reading, the least of some turns after the virtual machine is warm. Header and body are looked into,
 * and of each request the template, because Bouncy Castle takes a sequence apart only where it is asked for.
 */
public final class ReadBench {
    private static final int TURNS = 20_000;
    private static final int OCTETS = 20_000;
    /** No further turn begins after so many nanoseconds. */
    private static final long LONGEST = 3_000_000_000L;

    private static long seen;

    public static void main(String[] words) throws Exception {
        for (String path : words) {
            byte[] message = Files.readAllBytes(Path.of(path));
            System.out.println(path + "\t" + least(message));
        }
        System.out.println("seen " + seen);
    }

    private static long least(byte[] message) {
        byte[][] copies = new byte[OCTETS / message.length + 1][];
        for (int i = 0; i < copies.length; i++) {
            copies[i] = message.clone();
        }
        long least = Long.MAX_VALUE;
        long begun = System.nanoTime();
        for (int turn = 0; turn < TURNS && System.nanoTime() - begun < LONGEST; turn++) {
            long start = System.nanoTime();
            for (byte[] copy : copies) {
                read(copy);
            }
            least = Math.min(least, (System.nanoTime() - start) / copies.length);
        }
        return least;
    }

    private static void read(byte[] octets) {
        PKIMessage message = PKIMessage.getInstance(octets);
        seen += message.getHeader().getPvno().intValueExact();
        PKIBody body = message.getBody();
        if (body.getContent() instanceof CertReqMessages requests) {
            for (CertReqMsg request : requests.toCertReqMsgArray()) {
                CertTemplate template = request.getCertReq().getCertTemplate();
                SubjectPublicKeyInfo key = template.getPublicKey();
                seen += template.getSubject().getRDNs().length + template.getExtensions().getExtensionOIDs().length
                        + request.getPopo().getType() + (key == null ? 0 : key.getPublicKeyData().getBytes().length);
            }
        } else {
            seen += body.getType();
        }
    }
}
