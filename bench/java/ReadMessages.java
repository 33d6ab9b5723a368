import java.io.IOException;
import java.nio.charset.StandardCharsets;
import java.nio.file.Files;
import java.nio.file.Path;
import java.util.Arrays;
import java.util.Random;
import org.bouncycastle.asn1.ASN1Encodable;
import org.bouncycastle.asn1.ASN1GeneralizedTime;
import org.bouncycastle.asn1.ASN1ObjectIdentifier;
import org.bouncycastle.asn1.DERBitString;
import org.bouncycastle.asn1.DERNull;
import org.bouncycastle.asn1.DERSequence;
import org.bouncycastle.asn1.DERTaggedObject;
import org.bouncycastle.asn1.cmp.CMPObjectIdentifiers;
import org.bouncycastle.asn1.cmp.InfoTypeAndValue;
import org.bouncycastle.asn1.cmp.PKIBody;
import org.bouncycastle.asn1.cmp.PKIConfirmContent;
import org.bouncycastle.asn1.cmp.PKIFreeText;
import org.bouncycastle.asn1.cmp.PKIHeader;
import org.bouncycastle.asn1.cmp.PKIHeaderBuilder;
import org.bouncycastle.asn1.cmp.PKIMessage;
import org.bouncycastle.asn1.crmf.CertReqMessages;
import org.bouncycastle.asn1.crmf.CertReqMsg;
import org.bouncycastle.asn1.crmf.CertRequest;
import org.bouncycastle.asn1.crmf.CertTemplateBuilder;
import org.bouncycastle.asn1.crmf.POPOSigningKey;
import org.bouncycastle.asn1.crmf.ProofOfPossession;
import org.bouncycastle.asn1.x500.X500Name;
import org.bouncycastle.asn1.x509.AlgorithmIdentifier;
import org.bouncycastle.asn1.x509.Extension;
import org.bouncycastle.asn1.x509.Extensions;
import org.bouncycastle.asn1.x509.GeneralName;
import org.bouncycastle.asn1.x509.GeneralNames;
import org.bouncycastle.asn1.x509.KeyUsage;
import org.bouncycastle.asn1.x509.SubjectPublicKeyInfo;

/**
 * Makes the messages whose reading is timed, with Bouncy Castle.
 *
 * <p>The one argument is a folder. Requests are ir messages with extensions and a signature, with a key of HSS/LMS or
 * without one; the others are rows of empty elements of growing length.
 */
public final class ReadMessages {
    private static final AlgorithmIdentifier HSS_LMS =
            new AlgorithmIdentifier(new ASN1ObjectIdentifier("1.2.840.113549.1.9.16.3.17"));
    private static final X500Name DEVICE = new X500Name("CN=device-1,OU=Sensors,O=Fleet");
    private static final X500Name AUTHORITY = new X500Name("CN=Fleet CA,O=Fleet");

    private final Random random = new Random(20240229);
    private final Path folder;

    private ReadMessages(Path folder) {
        this.folder = folder;
    }

    public static void main(String[] words) throws Exception {
        ReadMessages messages = new ReadMessages(Path.of(words[0]));
        messages.keep("ir", messages.requests(1, true));
        messages.keep("ir of 346 requests", messages.requests(346, true));
        messages.keep("ir, no keys", messages.requests(1, false));
        messages.keep("ir of 487 requests, no keys", messages.requests(487, false));
        for (int count = 625; count <= 10_000; count *= 2) {
            messages.keep(String.format("nested, %05d empty", count), messages.nested(count));
            messages.keep(String.format("freeText, %05d empty", count), messages.texts(count));
        }
    }

    private byte[] requests(int count, boolean withKey) throws IOException {
        CertReqMsg[] requests = new CertReqMsg[count];
        for (int i = 0; i < count; i++) {
            Extensions extensions = new Extensions(new Extension[] {
                Extension.create(Extension.keyUsage, true, new KeyUsage(KeyUsage.digitalSignature)),
                Extension.create(Extension.subjectAlternativeName, false,
                        new GeneralNames(new GeneralName(GeneralName.dNSName, "device-1.fleet.example")))});
            CertTemplateBuilder template = new CertTemplateBuilder().setSubject(DEVICE).setExtensions(extensions);
            if (withKey) {
                template.setPublicKey(new SubjectPublicKeyInfo(HSS_LMS, octets(60)));
            }
            POPOSigningKey proof = new POPOSigningKey(null, HSS_LMS, new DERBitString(octets(64)));
            requests[i] = new CertReqMsg(new CertRequest(i, template.build(), null), new ProofOfPossession(proof), null);
        }
        PKIHeader header = header().setGeneralInfo(new InfoTypeAndValue(CMPObjectIdentifiers.it_implicitConfirm, DERNull.INSTANCE)).build();
        PKIBody body = new PKIBody(PKIBody.TYPE_INIT_REQ, new CertReqMessages(requests));
        return new PKIMessage(header, body, new DERBitString(octets(64))).getEncoded("DER");
    }

    private byte[] nested(int count) throws IOException {
        ASN1Encodable[] messages = new ASN1Encodable[count];
        Arrays.fill(messages, new DERSequence());
        return new DERSequence(new ASN1Encodable[] {
            header().build(), new DERTaggedObject(true, PKIBody.TYPE_NESTED, new DERSequence(messages))}).getEncoded("DER");
    }

    private byte[] texts(int count) throws IOException {
        String[] texts = new String[count];
        Arrays.fill(texts, "");
        PKIHeader header = header().setFreeText(new PKIFreeText(texts)).build();
        return new PKIMessage(header, new PKIBody(PKIBody.TYPE_CONFIRM, new PKIConfirmContent())).getEncoded("DER");
    }

    private PKIHeaderBuilder header() {
        return new PKIHeaderBuilder(2, new GeneralName(DEVICE), new GeneralName(AUTHORITY))
                .setMessageTime(new ASN1GeneralizedTime("20231114221320Z"))
                .setProtectionAlg(HSS_LMS)
                .setSenderKID("device-1".getBytes(StandardCharsets.US_ASCII))
                .setTransactionID(octets(16))
                .setSenderNonce(octets(16));
    }

    private byte[] octets(int count) {
        byte[] octets = new byte[count];
        random.nextBytes(octets);
        return octets;
    }

    private void keep(String name, byte[] message) throws IOException {
        Files.write(folder.resolve(name), message);
    }
}
